-- Four cameras of 16 readings each against a threshold each; a verdict for
-- each turn, an alarm where two or more cameras are high.
local c = {}
for k = 0, 3 do
  for i = 0, 15 do c[16 * k + i] = (i * (3 + 2 * k) + k) % 16 end
end
for k = 0, 3 do c[64 + k] = 11 end
local ports, values = {}, {}

return function(scale)
  local v0, v1, v2, v3, v4, n = 256 * scale, 0, 0, 0, 0, 0
  while v0 ~= 0 do
    v1 = v0 % 16
    v2 = v3 - v3
    if c[64] < c[v1] then v2 = v2 + 1 end
    if c[65] < c[16 + v1] then v2 = v2 + 1 end
    if c[66] < c[32 + v1] then v2 = v2 + 1 end
    if c[67] < c[48 + v1] then v2 = v2 + 1 end
    v4 = v4 + 1
    n = n + 1
    ports[n], values[n] = 0, v4
    if 2 <= v2 then
      n = n + 1
      ports[n], values[n] = 1, v2
    end
    v0 = v0 + -1
  end
  return v4
end
