-- Five nested tests choose which counter grows.
return function(scale)
  local v0, v1, v2, v3, v4 = 465 * scale, 0, 0, 0, 0
  local v5, v6, v7, v8, v9 = 0, 0, 0, 0, 0
  while v0 ~= 0 do
    v1 = (v1 + 1) % 5
    v2 = (v2 + 1) % 7
    v3 = (v3 + 1) % 9
    v4 = (v4 + 1) % 11
    if v1 < 3 then
      if v2 < 4 then
        if v3 < 5 then
          if v4 < 6 then
            if v9 == -1 then
            else
              v8 = v8 + 1
            end
          else
            v9 = v9 + 1
          end
        else
          v7 = v7 + 1
        end
      else
        v6 = v6 + 1
      end
    else
      v5 = v5 + 1
    end
    v0 = v0 + -1
  end
  return v8
end
