-- Sends one body again and again: wrk -s post.lua URL -- BODY_FILE PATH. Prints a line of counts and
-- microseconds at the end.
function init(args)
    local file = assert(io.open(args[1], "rb"))
    wrk.method = "POST"
    wrk.path = args[2]
    wrk.body = file:read("*a")
    wrk.headers["Content-Type"] = "application/ipp"
    file:close()
end

function done(summary, latency)
    local failed = summary.errors
    io.write(string.format("requests=%d duration=%d p50=%d p99=%d failed=%d\n",
        summary.requests, summary.duration, latency:percentile(50), latency:percentile(99),
        failed.connect + failed.read + failed.write + failed.status + failed.timeout))
end
