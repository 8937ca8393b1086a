-- Ages and periods: how far each of ten million records is into a period of two and a half years, and into one without end.
local forever = 1e999
local into, age = 0.0, 0.0
for record = 1, 10000000 do
  age = record * 0.5
  into = into + age % 912.5
  age = age % forever
end
return into, age
