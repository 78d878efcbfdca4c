# What the scripts that write waveforms share.

# Numbers from a generator (x * 69621 modulo 2^31 - 1), the same in every run; `state` is 1 at first.
function random() {
  state = state * 69621 % 2147483647
  return state
}

# A number below `limit`.
function below(limit) {
  return int(random() / 4) % limit
}

# The lowest digits of a value, without leading zeros.
function binary(value, width,    text) {
  text = ""
  for (; width > 0 && value > 0; width--) {
    text = (value % 2) text
    value = int(value / 2)
  }
  return text == "" ? "0" : text
}
