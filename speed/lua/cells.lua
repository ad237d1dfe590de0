-- A sieve, then running sums of its marks. The table is made once, as the
-- machine's memory is lent.
local M = 370
local c = {}
for i = 0, M - 1 do c[i] = 0 end

return function(scale)
  local v0, v1, v2, v3 = scale, 0, 0, 0
  while v0 ~= 0 do
    v1 = 0
    while v1 < M do
      c[v1] = 0
      v1 = v1 + 1
    end
    v1 = 2
    while v1 < M do
      if c[v1] == 0 then
        v2 = v1 + v1
        while v2 < M do
          c[v2] = 1
          v2 = v2 + v1
        end
      end
      v1 = v1 + 1
    end
    v1 = 1
    while v1 < M do
      c[v1] = c[v1 - 1] + c[v1]
      v1 = v1 + 1
    end
    v3 = v3 + c[M - 1]
    v0 = v0 + -1
  end
  return v3
end
