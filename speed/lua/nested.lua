-- Nested loops with arithmetic. No value leaves 32 bits or falls below 0, so
-- Lua's wider integers and its remainder give the machine's numbers.
return function(scale)
  local v0, v1, v2, v3 = 96 * scale, 0, 0, 0
  while 0 < v0 do
    v1 = 12
    while v1 ~= 0 do
      v2 = (v2 * 31 + v0 * v1) % 1009
      if v2 < 500 then v3 = v3 + 1 end
      v1 = v1 + -1
    end
    v0 = v0 - 1
  end
  return v3
end
