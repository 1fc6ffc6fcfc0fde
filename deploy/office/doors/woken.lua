-- Wakes what waits for a shard that nobody asks. HAProxy 2.6 doesn't hand on the place of a request
-- whose client goes in the instant in which it gets it, so that what waits behind it would wait until
-- its time for a turn is over. When a server's number of places is set, HAProxy looks at its queue.
local EACH = 200

local function woken(server)
    local told = server:get_stats()
    if tonumber(told.qcur or 0) > 0 and tonumber(told.scur or 0) == 0 then
        server:set_maxconn("1")
    end
end

core.register_task(function()
    while true do
        core.msleep(EACH)
        for _, backend in pairs(core.backends) do
            for _, server in pairs(backend.servers) do
                woken(server)
            end
        end
    end
end)
