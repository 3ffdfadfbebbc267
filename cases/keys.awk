# Every list of four of the panel's keys but for the digits 1 to 6, and each key behind each beginning of an entry and of a readout. With
# -v shown=0 it prints them as a script, which shows the display after each key, and with -v shown=1 the displays, by the rules of
# docs/PANEL.md over the keys after the last CLR.

# is_digit KEY GREATEST: a digit up to the greatest
function is_digit(key, greatest) { return key ~ /^[0-9]$/ && key + 0 <= greatest }

# entry_has POSITION KEY: the key may stand there in an entry, counted from 0
function entry_has(position, key) {
  if (position < 3) return is_digit(key, 7)
  if (position == 3) return key == "+" || key == "-"
  if (position < 9) return is_digit(key, 9)
  return position == 9 && key == "ENTR"
}

# readout_has POSITION KEY: the same in a readout
function readout_has(position, key) {
  if (position < 3) return is_digit(key, 7)
  return key == (position % 2 == 1 ? "RO" : "HOLD")
}

# press KEY: the key is pressed, and the display shown
function press(key) {
  if (!shown) {
    printf "KEY %s\nSHOW DEDA\n", key
    return
  }
  if (key == "CLR") {
    text = "          "
    count = 0
    entry = readout = 1
    wrong = 0
  } else if (!wrong) {
    entry = entry && entry_has(count, key)
    readout = readout && readout_has(count, key)
    wrong = !entry && !readout
    if (wrong)
      text = substr(text, 1, 9) "E"
    else if (count < 9)
      text = substr(text, 1, count) (length(key) == 1 ? key : " ") substr(text, count + 2)
    count++
  }
  printf "DEDA |%s|\n", text
}

# behind FORM: each key behind each beginning of a form
function behind(form, keys, number, length_, last, key) {
  length_ = split(form, keys, " ")
  for (number = 0; number <= length_; number++)
    for (key = 1; key <= known; key++) {
      press("CLR")
      for (last = 1; last <= number; last++) press(keys[last])
      press(known_keys[key])
    }
}

BEGIN {
  known = split("0 7 8 9 + - CLR ENTR RO HOLD", known_keys, " ")
  for (a = 1; a <= known; a++)
    for (b = 1; b <= known; b++)
      for (c = 1; c <= known; c++)
        for (d = 1; d <= known; d++) {
          press("CLR")
          press(known_keys[a])
          press(known_keys[b])
          press(known_keys[c])
          press(known_keys[d])
        }
  behind("0 4 7 - 9 8 0 1 2 ENTR")
  behind("7 0 1 RO HOLD RO HOLD RO")
}
