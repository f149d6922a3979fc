-- Spacing of the notes of one bar: a longer note gets more room behind it.
-- `notes` is a list of tables with the fields `length` (in quarters) and `accidental`.
local least = 2.5                       -- the smallest room, in staff spaces

function spacing(notes, width)
  local places, x = {0}, 0
  for i = 2, #notes do
    local before = notes[i - 1]
    local room = before.length * 4
    if room < least then room = least end
    if notes[i].accidental then room = room + 1 end
    x = x + room
    places[i] = x
  end
  -- Stretch the bar to the width of the line; an empty bar stays as it is.
  if x > 0 then
    for i = #places, 1, -1 do
      places[i] = places[i] * width / x
    end
  end
  return places
end
