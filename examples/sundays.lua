-- Lists the chunks that hold a Sunday's backup, the newest first.
--
-- The archive closes a chunk a day, chunk 1 on Monday, 1 January 2024: every seventh is a Sunday's. Those from 84 to 119 are due.
--
-- Returns their numbers in the order in which the loop visits them, three digits each; and how many they are.

local newest, oldest = 119, 84

local listed, count = 0, 0
for chunk = newest, oldest, -7 do
  listed = listed * 1000 + chunk
  count = count + 1
end
return listed, count
