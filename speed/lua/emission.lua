-- Two records a turn, port and value, into tables that are kept, as the
-- machine's record room is lent.
local ports, values = {}, {}

return function(scale)
  local v0, n = 1249 * scale, 0
  while v0 ~= 0 do
    n = n + 1
    ports[n], values[n] = 0, v0
    n = n + 1
    ports[n], values[n] = 1, v0 * 2
    v0 = v0 + -1
  end
  return v0
end
