-- while v0 { v0 := v0 + -1 }
return function(scale)
  local v0 = 4999 * scale
  while v0 ~= 0 do
    v0 = v0 + -1
  end
  return v0
end
