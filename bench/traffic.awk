# Writes a waveform of so many cycles with lawful traffic on all four channels, under the default names and parameters, and beside
# it `foreign` variables of other parts of a design, of which `changes` change in each cycle. It is read after random.awk.
#
# Uses are numbered, and number n has the id n modulo 8. A use is offered when its id is free, and waits for a random time; one in
# eight is refused. It gets its operands flag by flag, and is decided in issue order; one decision in sixteen is a kill, which takes
# all that are younger. Results come in any order and may wait.

function put(signal, value,    i) {
  i = number[signal]
  if (cycle > 0 && last[i] == value)
    return
  last[i] = value
  if (width[i] == 1)
    printf "%d%s\n", value, code[i]
  else
    printf "b%s %s\n", binary(value, width[i]), code[i]
}

function issue(    ready) {
  issued = 0
  if (!offering && below(4) > 0 && (newest < 7 || free[(newest + 1) % 8] < cycle)) {
    offering = 1
    newest++
    word[newest % 8] = 128 * below(32) + 4096 * below(8) + 11
    answered[newest % 8] = given[newest % 8] = released[newest % 8] = finished[newest % 8] = 0
    flags[newest % 8] = 0
    free[newest % 8] = cycles
  }
  put("issue_valid", offering)
  if (!offering)
    return
  use = newest % 8
  put("issue_id", use)
  put("issue_instr", word[use])
  issued = below(3) > 0
  put("issue_ready", issued)
  if (issued) {
    answered[use] = 1
    accepted[use] = below(8) > 0
    writes[use] = accepted[use] * below(2)
    reads[use] = accepted[use] * below(4)
    put("issue_accept", accepted[use])
    put("issue_writeback", writes[use])
    put("issue_register_read", reads[use])
    offering = 0
  }
}

# The oldest use that was answered and needs operands gets them.
function registers(    n, use, more) {
  for (n = oldest; n <= newest; n++) {
    use = n % 8
    if (answered[use] && reads[use] > 0 && !given[use] && !(issued && n == newest))
      break
  }
  put("register_valid", n <= newest)
  if (n > newest)
    return
  if (flags[use] == 0) {
    value0[use] = random()
    value1[use] = random()
  }
  more = below(4)
  if (more % 2 > flags[use] % 2)
    flags[use]++
  if (more > 1 && flags[use] < 2)
    flags[use] += 2
  put("register_id", use)
  put("register_rs_valid", flags[use])
  if (flags[use] % 2 == 1)
    put("register_rs0", value0[use])
  if (flags[use] > 1)
    put("register_rs1", value1[use])
  given[use] = (flags[use] % 2 >= reads[use] % 2) && (flags[use] > 1 || reads[use] < 2) && below(3) > 0
  put("register_ready", given[use])
}

# The oldest undecided use is decided, if it was answered: the uses below `undecided` are decided.
function commit(    n, use, kill) {
  use = undecided % 8
  decide = undecided <= newest && answered[use] && below(2) == 0
  put("commit_valid", decide)
  if (!decide)
    return
  kill = below(16) == 0
  put("commit_id", use)
  put("commit_kill", kill)
  if (kill) {
    for (n = undecided; n <= newest; n++) {
      free[n % 8] = cycle
      finished[n % 8] = 1
      given[n % 8] = 1
    }
    undecided = newest + 1
    offering = 0
  } else {
    released[use] = 1
    if (!accepted[use]) {
      free[use] = cycle
      finished[use] = 1
    }
    undecided++
  }
}

function may_finish(use) {
  return released[use] && accepted[use] && !finished[use] && (reads[use] == 0 || given[use])
}

# A result that waits stays; else the oldest use that may finish has one, or the next one.
function result(    n, use, taken) {
  if (waiting < 0)
    for (n = oldest; n < undecided; n++)
      if (may_finish(n % 8)) {
        waiting = n % 8
        data = random()
        if (below(3) > 0)
          break
      }
  put("result_valid", waiting >= 0)
  if (waiting >= 0) {
    taken = below(3) > 0
    put("result_ready", taken)
    put("result_id", waiting)
    put("result_we", writes[waiting])
    if (writes[waiting]) {
      put("result_rd", int(word[waiting] / 128) % 32)
      put("result_data", data)
    }
    if (taken) {
      finished[waiting] = 1
      free[waiting] = cycle
      waiting = -1
    }
  }
  while (oldest < undecided && finished[oldest % 8])
    oldest++
}

# The rest of the design.
function others(    n, place) {
  for (n = 0; n < changes; n++) {
    place = below(foreign)
    if (place % 4 == 0)
      printf "%d%s\n", below(2), "f" place
    else
      printf "b%s %s\n", binary(random(), 32), "f" place
  }
}

BEGIN {
  names = "clk rst_n issue_valid issue_ready issue_hartid issue_id issue_instr issue_accept issue_writeback issue_register_read " \
    "register_valid register_ready register_hartid register_id register_rs0 register_rs1 register_rs_valid commit_valid " \
    "commit_hartid commit_id commit_kill result_valid result_ready result_hartid result_id result_data result_rd result_we"
  count = split(names, name, " ")
  split("1 1 1 1 1 3 32 1 1 2 1 1 1 3 32 32 2 1 1 3 1 1 1 1 3 32 5 1", width, " ")
  codes = "!\"#$%&'()*+,-./023456789:;<="
  state = 1
  newest = -1
  waiting = -1
  offering = oldest = undecided = 0
  print "$timescale 1 ns $end"
  print "$scope module xif $end"
  for (i = 1; i <= count; i++) {
    number[name[i]] = i
    code[i] = substr(codes, i, 1)
    printf "$var wire %d %s %s $end\n", width[i], code[i], name[i]
  }
  print "$upscope $end"
  print "$scope module design $end"
  for (i = 0; i < foreign; i++)
    printf "$var wire %d f%d signal%d $end\n", (i % 4 == 0 ? 1 : 32), i, i
  print "$upscope $end"
  print "$enddefinitions $end"
  for (cycle = 0; cycle < cycles; cycle++) {
    printf "#%d\n0!\n", 10 * cycle
    if (cycle == 0)
      for (i = 2; i <= count; i++)
        put(name[i], i == 2)
    issue()
    registers()
    commit()
    result()
    others()
    printf "#%d\n1!\n", 10 * cycle + 5
  }
  printf "#%d\n0!\n", 10 * cycles
}
