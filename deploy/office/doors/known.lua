-- HAProxy's part of the archive's door. A request for a shard that is about to turn waits; then a key
-- that an archive may have is asked for at the archive's service, and what it has is answered there. What
-- surely isn't there goes to its shard at once. OFFICE_KNOWN is the folder that the command `office`
-- writes (archive/known.py), OFFICE_ARCHIVE the service's socket, OFFICE_WAIT how many milliseconds a
-- request waits at most, OFFICE_HASHED and OFFICE_SHARDS how many shards the hash has and the office.
local FOLDER, SOCKET = os.getenv("OFFICE_KNOWN"), os.getenv("OFFICE_ARCHIVE")
local MOST, EACH, LOOK, SECONDS = tonumber(os.getenv("OFFICE_WAIT")), 20, 200, 60
local HASHED, SHARDS = tonumber(os.getenv("OFFICE_HASHED")), tonumber(os.getenv("OFFICE_SHARDS"))
local POINTS, ROOM, WORD = 16, 4096, 0xFFFFFFFF
local PROBES, SPREAD = 4, 0x9E3779B1

-- The ring of the shards, as shards.py has it.
local function spread(key)
    key = (key + 0x7ED55D16 + (key << 12)) & WORD
    key = key ~ 0xC761C23C ~ (key >> 19)
    key = (key + 0x165667B1 + (key << 5)) & WORD
    key = ((key + 0xD3A2646C) ~ (key << 9)) & WORD
    key = (key + 0xFD7046C5 + (key << 3)) & WORD
    key = key ~ 0xB55A4F09 ~ (key >> 16)
    return (key * 3221225473) & WORD
end

local function sum_of(account)
    local made = 0
    for at = 1, #account do
        made = (account:byte(at) + (made << 6) + (made << 16) - made) & WORD
    end
    return made
end

local ring = {}
for number = 1, HASHED do
    for point = 0, POINTS - 1 do
        ring[#ring + 1] = { spread(number * ROOM + point), string.format("%02d", number) }
    end
end
table.sort(ring, function(one, other) return one[1] < other[1] end)

local function hashed(account)
    local key, low, high = spread(sum_of(account)), 1, #ring + 1
    while low < high do
        local middle = (low + high) // 2
        if ring[middle][1] < key then low = middle + 1 else high = middle end
    end
    local after = low > #ring and 1 or low
    local before = after == 1 and #ring or after - 1
    local back, on = (key - ring[before][1]) & WORD, (ring[after][1] - key) & WORD
    return ring[back <= on and before or after][2]
end

-- The folder as it was read last: the index's text, a filter of each archive in force (false where there
-- is none that can be read, so that it may have any key), the shards whose requests wait.
local index, read, filters, held, known = nil, {}, {}, {}, ""

local function content(path)
    local file = io.open(path, "rb")
    if not file then
        return nil
    end
    local text = file:read("a")
    file:close()
    return text
end

local function look()
    local text = content(FOLDER .. "/index") or ""
    if text ~= index then
        local found, names, by_name = {}, {}, {}
        for name in text:gmatch("%S+") do
            local filter = read[name] or content(FOLDER .. "/" .. name .. ".filter")
            local is_whole = filter and #filter > 0 and #filter & (#filter - 1) == 0
            by_name[name] = is_whole and filter or nil
            found[#found + 1], names[#names + 1] = is_whole and filter or false, name
        end
        index, read, filters, known = text, by_name, found, table.concat(names, " ")
    end
    local waiting = {}
    for number = 1, SHARDS do
        local name = string.format("%02d", number)
        local file = io.open(FOLDER .. "/held-" .. name, "rb")
        if file then
            file:close()
            waiting[name], waiting[#waiting + 1] = true, name
        end
    end
    held = waiting
end

local function may_be_kept(sum)
    local step = (sum * SPREAD & WORD) >> 7 | 1
    for _, filter in ipairs(filters) do
        local last, is_there = filter and 8 * #filter - 1, true
        for turn = 0, filter and PROBES - 1 or -1 do
            local place = sum + turn * step & last
            if filter:byte((place >> 3) + 1) >> (place & 7) & 1 == 0 then
                is_there = false
                break
            end
        end
        if is_there then
            return true
        end
    end
    return false
end

-- A name is read here as the program reads it where it comes once and without an escape.
local function is_plain(body, name)
    local first, last = body:find(name, 1, true)
    return first and not body:find(name, last, true) and not body:find("\\", 1, true)
end

local function may_be(txn, method, path)
    if method == "GET" then
        return index ~= "" and path:find("^/accounts/%d+/statement/") ~= nil
    elseif #filters == 0 then
        return false
    end
    local is_request = path == "/ccr"
    local is_command = path:find("^/accounts/%d+/[ac]") or path:find("^/vouchers/")
    if method ~= "POST" or not (is_request or is_command) then
        return false
    end
    local body = txn.sf:req_body()
    if not is_plain(body, is_request and '"Session-Id"' or '"Reference"') then
        return true
    end
    local name = txn:get_var(is_request and "txn.session" or "txn.reference")
    if not name then
        return false
    end
    local key = txn:get_var("txn.account") .. (is_request and " 1 " or " 2 ") .. name
    return may_be_kept(txn.c:crc32(key) & WORD)
end

-- `kept` or `new`, as the service says; `away` where it says nothing.
local function asked(txn, method, path)
    local peer = core.tcp()
    peer:settimeout(SECONDS)
    if not peer:connect("unix@" .. SOCKET) then
        return "away"
    end
    local body = method == "POST" and txn.sf:req_body() or ""
    local head = "%s %s HTTP/1.1\r\nHost: archive\r\nOffice-Kept: 1\r\nContent-Length: %d\r\n\r\n"
    peer:send(head:format(method, path, #body) .. body)
    local line = peer:receive("*l") or ""
    peer:close()
    return ({ ["200"] = "kept", ["404"] = "new" })[line:match("^HTTP/1.1 (%d+)")] or "away"
end

core.register_action("known", { "http-req" }, function(txn)
    local account, waited = txn:get_var("txn.account"), 0
    if not account then
        return
    end
    while #held > 0 and held[txn:get_var("txn.shard") or hashed(account)] do
        if waited >= MOST then
            txn:set_var("txn.past", "held")
            return
        end
        core.msleep(EACH)
        waited = waited + EACH
    end
    local method, path = txn.f:method(), txn.f:path()
    if may_be(txn, method, path) then
        txn:set_var("txn.past", asked(txn, method, path))
    end
end, 0)

local USAGE = "office known: which archives are in force, and whose requests wait"
core.register_cli({ "office", "known" }, USAGE, function(applet)
    look()
    applet:send(known .. "; held " .. table.concat(held, " ") .. "\n")
end)

look()
core.register_task(function()
    while true do
        core.msleep(LOOK)
        look()
    end
end)
