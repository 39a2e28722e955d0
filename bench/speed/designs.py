"""The designs that bench/speed/run measures: for each its name, and a function of cycles that gives source, top and stimulus.

Each design has an input clk and makes its own data from it, so that the stimulus is one clock: the first edge at 5 ns, a half period of 5 ns.
"""
HEAD = "library ieee;\nuse ieee.std_logic_1164.all;\nuse ieee.numeric_std.all;\n"


def vector(width):
    return f"std_logic_vector({width - 1} downto 0)"


def clocked(cycles):
    return f"clock clk 5 5\nstop {10 * cycles}\n"


def counters(number, width):
    """The declarations and processes of counters q0, q1 .. that count by 1, 2 .."""
    signals = [f"  signal q{k} : unsigned({width - 1} downto 0) := (others => '0');" for k in range(number)]
    processes = [f"  process (clk) begin if rising_edge(clk) then q{k} <= q{k} + {k + 1}; end if; end process;" for k in range(number)]
    return signals, processes


def bank(top, number, width, left):
    """Counters, and the xor of each with what stands left of it."""
    signals, processes = counters(number, width)
    signals += [f"  signal x{k} : {vector(width)};" for k in range(number - 1)]
    processes += [f"  x{k} <= {left(k)} xor std_logic_vector(q{k + 1});" for k in range(number - 1)]
    ports = f"port (clk : in std_logic; y : out {vector(width)})"
    return whole(top, ports, signals, processes + [f"  y <= x{number - 2};"])


def whole(top, ports, declarations, statements):
    lines = [f"entity {top} is {ports}; end;", f"architecture rtl of {top} is", *declarations, "begin", *statements, "end;", ""]
    return HEAD + "\n".join(lines)


def pairs(number=200, width=32):
    """Each xor of two neighbours: one level of logic."""
    return bank("pairs", number, width, lambda k: f"std_logic_vector(q{k})")


def chain(number=60, width=32):
    """Each xor of the one before and a counter: as many levels as xors, so that an event simulator's work grows with their square."""
    return bank("chain", number, width, lambda k: "std_logic_vector(q0)" if k == 0 else f"x{k - 1}")


def bank_in_verilog(top, number, width, left):
    """The same bank: a synthesis would leave out what nothing reads."""
    lines = [f"module {top}(input clk, output [{width - 1}:0] y);"]
    lines += [f"  reg [{width - 1}:0] q{k} = 0;\n  always @(posedge clk) q{k} <= q{k} + {k + 1};" for k in range(number)]
    lines += [f"  wire [{width - 1}:0] x{k} = {left(k)} ^ q{k + 1};" for k in range(number - 1)]
    return "\n".join([*lines, f"  assign y = x{number - 2};", "endmodule", ""])


def pairs_in_verilog(number=200, width=32):
    return bank_in_verilog("pairs", number, width, lambda k: f"q{k}")


def chain_in_verilog(number=60, width=32):
    return bank_in_verilog("chain", number, width, lambda k: "q0" if k == 0 else f"x{k - 1}")


ARBITER = HEAD + """entity arbiter is
  port (clk, reset : in std_logic; r0, r1, r2, r3 : in std_logic; g0, g1, g2, g3 : out std_logic);
end;
architecture rtl of arbiter is
  type state is (start, idle, serve0, serve1, serve2, serve3, gap0, gap1, gap2, gap3);
  signal now : state;
  signal left : unsigned(3 downto 0);
begin
  process (clk)
  begin
    if rising_edge(clk) then
      if reset = '1' then
        now <= idle;
        left <= "0000";
      else
        case now is
          when start | idle =>
            left <= "0011";
            if r0 = '1' then now <= serve0;
            elsif r1 = '1' then now <= serve1;
            elsif r2 = '1' then now <= serve2;
            elsif r3 = '1' then now <= serve3;
            end if;
SERVES          when gap0 =>
            left <= "0111";
            if r1 = '1' then now <= serve1; elsif r2 = '1' then now <= serve2; else now <= idle; end if;
          when gap1 =>
            left <= "0101";
            if r2 = '1' then now <= serve2; elsif r3 = '1' then now <= serve3; else now <= idle; end if;
          when gap2 =>
            left <= "0010";
            if r3 = '1' then now <= serve3; elsif r0 = '1' then now <= serve0; else now <= idle; end if;
          when gap3 =>
            left <= "0100";
            if r0 = '1' then now <= serve0; elsif r1 = '1' then now <= serve1; else now <= idle; end if;
        end case;
      end if;
    end if;
  end process;
  process (all)
  begin
    g0 <= '0';
    g1 <= '0';
    g2 <= '0';
    g3 <= '0';
    case now is
      when serve0 => g0 <= '1';
      when serve1 => g1 <= '1';
      when serve2 => g2 <= '1';
      when serve3 => g3 <= '1';
      when others => null;
    end case;
  end process;
end;
""".replace("SERVES", "".join(
    f"          when serve{k} =>\n"
    f"            if left = \"0000\" or r{k} = '0' then now <= gap{k}; else left <= left - 1; end if;\n" for k in range(4)))


def requests(width=32):
    """A shift register with feedback, which starts at 1 and from which the requests are taken."""
    declarations = [f"  signal noise : {vector(width)} := \"{1:0{width}b}\";"]
    top = width - 1
    process = (f"  process (clk) begin if rising_edge(clk) then noise <= noise({top - 1} downto 0) & "
               f"(noise({top}) xor noise({top - 10}) xor noise(1) xor noise(0)); end if; end process;")
    return declarations, [process]


def arbiters(number=64):
    """Arbiters of single wires, whose states are an enumeration of ten: control logic in large cases."""
    declarations, statements = requests()
    declarations.append("  signal reset, waiting : std_logic := '1';")
    statements.append("  process (clk) begin if rising_edge(clk) then waiting <= '0'; reset <= waiting; end if; end process;")
    for k in range(number):
        declarations.append(f"  signal a{k}, b{k}, c{k}, d{k} : std_logic;")
        taps = ", ".join(f"noise({(k * step + step) % 32})" for step in (1, 3, 5, 7))
        statements.append(f"  u{k} : entity work.arbiter port map (clk, reset, {taps}, a{k}, b{k}, c{k}, d{k});")
    grants = " xor ".join(f"{name}{k}" for k in range(number) for name in "abcd")
    statements.append(f"  y <= {grants};")
    return ARBITER + whole("arbiters", "port (clk : in std_logic; y : out std_logic)", declarations, statements)


def registers(words=64, width=32):
    """A register file: each word a process, one written a cycle, and one read through a case."""
    declarations, statements = requests(width)
    declarations.append("  signal address : unsigned(5 downto 0) := \"000000\";")
    statements.append("  process (clk) begin if rising_edge(clk) then address <= address + 5; end if; end process;")
    for k in range(words):
        declarations.append(f"  signal w{k} : {vector(width)} := (others => '0');")
        statements.append(f"  process (clk) begin if rising_edge(clk) then if address = {k} then w{k} <= noise; end if; end if; end process;")
    choices = [f"      when \"{k:06b}\" => y <= w{k};" for k in range(words)]
    statements += ["  process (all)", "  begin", "    case address is", *choices, "      when others => y <= (others => '0');",
                   "    end case;", "  end process;"]
    return whole("registers", f"port (clk : in std_logic; y : out {vector(width)})", declarations, statements)


QUAD = HEAD + """entity tally is
  port (clk, enable : in std_logic; q : out unsigned(7 downto 0); carry : out std_logic);
end;
architecture rtl of tally is
  signal count : unsigned(7 downto 0) := "00000000";
begin
  process (clk)
  begin
    if rising_edge(clk) then
      if enable = '1' then
        count <= count + 1;
      end if;
    end if;
  end process;
  q <= count;
  carry <= enable when count = 255 else '0';
end;
""" + HEAD + """entity quad is
  port (clk, enable : in std_logic; q : out unsigned(7 downto 0); carry : out std_logic);
end;
architecture rtl of quad is
  signal a, b, c, d : unsigned(7 downto 0);
  signal ca, cb, cc, cd : std_logic;
begin
  u0 : entity work.tally port map (clk, enable, a, ca);
  u1 : entity work.tally port map (clk, ca, b, cb);
  u2 : entity work.tally port map (clk, enable, c, cc);
  u3 : entity work.tally port map (clk, cc, d, cd);
  q <= (a xor b) + (c xor d);
  carry <= cb or cd;
end;
"""


def hierarchy(number=250):
    """A wide hierarchy: as many instances of four counters each, of which few do something in a cycle."""
    declarations, statements = requests()
    for k in range(number):
        declarations.append(f"  signal s{k} : unsigned(7 downto 0);")
        declarations.append(f"  signal c{k} : std_logic;")
        statements.append(f"  u{k} : entity work.quad port map (clk, noise({k % 32}), s{k}, c{k});")
    sums = " xor ".join(f"s{k}" for k in range(number))
    statements.append(f"  y <= {sums};")
    statements.append("  carry <= " + " xor ".join(f"c{k}" for k in range(number)) + ";")
    ports = "port (clk : in std_logic; y : out unsigned(7 downto 0); carry : out std_logic)"
    return QUAD + whole("hierarchy", ports, declarations, statements)


def priority(number=32, width=64):
    """Wide priority arbiters: the lowest request that is enabled, by a loop of as many turns, one-hot and as a number."""
    declarations = [f'  signal noise : {vector(32)} := "{0xACE1ACE1:032b}";']
    statements = ["  process (clk) begin if rising_edge(clk) then noise <= noise(30 downto 0) & (noise(31) xor noise(21) xor noise(1) xor noise(0)); end if; end process;"]
    for k in range(number):
        declarations.append(f"  signal q{k}, g{k}, m{k} : {vector(width)} := (others => '0'); signal e{k} : unsigned(5 downto 0);")
        shifted = f"q{k} <= (q{k}(31 downto 0) and noise) & (q{k}(63 downto 32) xor noise); m{k} <= m{k}(62 downto 0) & (noise({k}) xor m{k}(63));"
        statements.append(f"  process (clk) begin if rising_edge(clk) then {shifted} end if; end process;")
        turn = f"if q{k}(i) = '1' and m{k}(i) = '1' and found = '0' then g{k}(i) <= '1'; e{k} <= to_unsigned(i, 6); found := '1'; end if;"
        begun = f"found := '0'; g{k} <= (others => '0'); e{k} <= (others => '0');"
        statements.append(f"  process (all) variable found : std_logic; begin {begun} for i in 0 to {width - 1} loop {turn} end loop; end process;")
    statements.append("  y <= " + " xor ".join(f"e{k}" for k in range(number)) + ";")
    return whole("priority", "port (clk : in std_logic; y : out unsigned(5 downto 0))", declarations, statements)


def noisy():
    """An address, and what is written: declarations and statements."""
    declarations, statements = requests()
    declarations.append("  signal address : unsigned(5 downto 0) := \"000000\";")
    statements.append("  process (clk) begin if rising_edge(clk) then address <= address + 5; end if; end process;")
    return declarations, statements


def cases(of, choices):
    """A case on a part of the address, with a statement for each of its values."""
    width = len(choices).bit_length() - 1
    arms = "".join(f"when \"{k:0{width}b}\" => {text} " for k, text in enumerate(choices))
    return f"case {of} is {arms}when others => null; end case;"


def places(by_case=False, width=32):
    """A multiplexer of 64 words: element by element of a word one of 64 in a vector, at a computed place or by a case."""
    declarations, statements = noisy()
    declarations.append(f"  signal z : {vector(width)};")
    for k in range(width):
        declarations.append(f"  signal x{k} : {vector(64)} := (others => '0');")
        shifted = f"x{k} <= x{k}(62 downto 0) & (noise({k}) xor x{k}(63));"
        statements.append(f"  process (clk) begin if rising_edge(clk) then {shifted} end if; end process;")
    if by_case:
        for k in range(width):
            chosen = cases("address", [f"z({k}) <= x{k}({place});" for place in range(64)])
            statements.append(f"  process (all) begin z({k}) <= 'X'; {chosen} end process;")
    else:
        statements += [f"  z({k}) <= x{k}(to_integer(address));" for k in range(width)]
    top = "places_by_case" if by_case else "places"
    return whole(top, f"port (clk : in std_logic; y : out {vector(width)})", declarations, [*statements, "  y <= z;"])


def files(by_case=False, number=32):
    """Register files of eight words of eight elements, written and read at computed places or by cases."""
    declarations, statements = noisy()
    for k in range(number):
        low, to = k % 25, f"address({k % 4 + 2} downto {k % 4})"
        declarations.append(f"  signal m{k} : {vector(64)} := (others => '0'); signal z{k} : {vector(8)};")
        value, word = f"noise({low + 7} downto {low})", lambda i: f"({8 * i + 7} downto {8 * i})"
        place = lambda of: f"m{k}(8 * to_integer({of}) + 7 downto 8 * to_integer({of}))"
        written, read = f"{place(to)} <= {value};", f"z{k} <= {place(f'not {to}')};"
        if by_case:
            written = cases(to, [f"m{k}{word(i)} <= {value};" for i in range(8)])
            read = f"process (all) begin z{k} <= (others => 'X'); {cases(to, [f'z{k} <= m{k}{word(7 - i)};' for i in range(8)])} end process;"
        statements += [f"  process (clk) begin if rising_edge(clk) then {written} end if; end process;", f"  {read}"]
    top = "files_by_case" if by_case else "files"
    statements.append("  y <= " + " xor ".join(f"z{k}" for k in range(number)) + ";")
    return whole(top, f"port (clk : in std_logic; y : out {vector(8)})", declarations, statements)


def quiet(vectors=16383):
    """A million nets that nothing changes, beside one that toggles."""
    declarations = [f"  signal n{k} : {vector(64)} := (others => '0');" for k in range(vectors)]
    statements = ["  process (clk) begin if rising_edge(clk) then toggle <= not toggle; end if; end process;", "  y <= toggle;"]
    return whole("quiet", "port (clk : in std_logic; y : out std_logic)", ["  signal toggle : std_logic := '0';", *declarations], statements)


# Of each design its source, how many clock cycles are timed, and its Verilog where a synthesis leaves something out.
DESIGNS = {
    "pairs": (pairs, 2000, pairs_in_verilog),
    "chain": (chain, 2000, chain_in_verilog),
    "arbiters": (arbiters, 2000, None),
    "registers": (registers, 5000, None),
    "hierarchy": (hierarchy, 2000, None),
    "priority": (priority, 2000, None),
    "places": (places, 2000, None),
    "places_by_case": (lambda: places(True), 2000, None),
    "files": (files, 2000, None),
    "files_by_case": (lambda: files(True), 2000, None),
}

# Those that `--wide` alone reads.
WIDE = {"places", "files"}
