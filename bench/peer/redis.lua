-- A debit of one block: the first answer where it was asked before, else the amount is taken and kept.
-- KEYS: answer, account, charges; ARGV: moment, session, price, request, answer.
local kept = redis.call('GET', KEYS[1])
if kept then
  return string.match(kept, '\n(.*)')
end
local left = tonumber(redis.call('HGET', KEYS[2], 'available'))
if not left then
  return '5030'
end
if left < tonumber(ARGV[3]) then
  return '4012'
end
redis.call('HINCRBY', KEYS[2], 'available', -ARGV[3])
redis.call('HINCRBY', KEYS[2], 'charged', ARGV[3])
redis.call('HINCRBY', KEYS[2], 'blocks', 1)
redis.call('HSET', KEYS[2], 'as_of', ARGV[1])
redis.call('RPUSH', KEYS[3], ARGV[1] .. ',' .. ARGV[2] .. ',30,1,' .. ARGV[3])
redis.call('SET', KEYS[1], ARGV[4] .. '\n' .. ARGV[5])
return ARGV[5]
