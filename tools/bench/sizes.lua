-- Byte counts: ten million sizes of up to four terabytes, each divided into mebibytes.
local mebibytes = 0.0
for chunk = 1, 10000000 do
  local bytes = chunk * 419431
  mebibytes = mebibytes + bytes / 1048576
end
return mebibytes
