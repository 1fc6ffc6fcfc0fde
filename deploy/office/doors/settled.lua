-- HAProxy's part of `office move`: a request for an account that moves waits until it has moved, and
-- then goes where the account is. OFFICE_MOVED is the file of moved accounts, in which an account that
-- moves is `moving`; OFFICE_WAIT is how many milliseconds a request waits at most.
local moved = Map.new(os.getenv("OFFICE_MOVED"), Map._str)
local EACH, MOST = 20, tonumber(os.getenv("OFFICE_WAIT"))

core.register_action("settled", { "http-req" }, function(txn)
    local account = txn:get_var("txn.account")
    local shard, waited = moved:lookup(account), 0
    while shard == "moving" and waited < MOST do
        core.msleep(EACH)
        waited = waited + EACH
        shard = moved:lookup(account)
    end
    if shard then
        txn:set_var("txn.shard", shard)
    else
        txn:unset_var("txn.shard")
    end
end, 0)
