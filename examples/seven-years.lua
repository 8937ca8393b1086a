-- Keeps every chunk seven years, and longer while a hold is set on it.
--
-- The archive closes a chunk at the end of each quarter, chunk 0 on 31 March 2016. A hold (a lawsuit, an audit) keeps a chunk
-- whatever its age.
--
-- Returns the chunks to release, bit i for chunk i; how many they are; and whether a hold keeps one that would be released.

local today = 20407               -- 15 November 2025; days are counted from 1 January 1970
local first = 16891               -- 31 March 2016
local chunks = 39                 -- those closed so far, the last on 30 September 2025
local holds = 1 << 2 | 1 << 30    -- a lawsuit over chunk 2, an audit of chunk 30

local year = 365.25
local keep = 7 * year

local release, count, held = 0, 0, false
for chunk = 0, chunks - 1 do
  local age = today - first - chunk * (year / 4)
  if age > keep then
    if holds >> chunk & 1 == 1 then
      held = true
    else
      release = release | 1 << chunk
      count = count + 1
    end
  end
end
return release, count, held
