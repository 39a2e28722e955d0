#!/usr/bin/env python3
"""wide.py FORM N: prints a design, wide, of N vectors of 64 elements, N a power of two up to 16,384 (a million nets).

tree        each vector the negation of the one at half its number; input x, N - 2 negations in log2 N levels
registers   half of the vectors are registers on clk, each fed by the negation of the next
quiet       the tree, and one element that toggles on clk
chain       N inverters of one element, one behind the other (N up to 65,535)
generate    the vectors in instances of a generate, four in each
pairs       N counters of 32 bits on clk, and N - 1 xors, each of two neighbours (any N)
"""
import sys

form, n = sys.argv[1], int(sys.argv[2])
HEAD = "library ieee; use ieee.std_logic_1164.all;\n"
V = "std_logic_vector(63 downto 0)"
if form == "tree":
    print(HEAD + f"entity wide is port (x : in {V}); end;\narchitecture r of wide is")
    print("signal " + ", ".join(f"s{k}" for k in range(1, n)) + " : " + V + ";\nbegin\ns1 <= x;")
    for k in range(2, n):
        print(f"s{k} <= not s{k // 2};")
elif form == "registers":
    h = n // 2
    print(HEAD + "entity wide is port (clk : in std_logic; x : in std_logic_vector(62 downto 0)); end;\narchitecture r of wide is")
    print(
        "signal "
        + ", ".join(f"q{k}" for k in range(h))
        + " : "
        + V
        + " := (others => '0');\nsignal "
        + ", ".join(f"n{k}" for k in range(1, h))
        + " : "
        + V
        + ";\nbegin"
    )
    for k in range(1, h):
        print(f"n{k} <= not q{k};\nprocess (clk) begin if rising_edge(clk) then q{k - 1} <= n{k}; end if; end process;")
    print(f"process (clk) begin if rising_edge(clk) then q{h - 1} <= not q{h - 1}; end if; end process;")
elif form == "quiet":
    print(HEAD + f"entity wide is port (clk : in std_logic; x : in {V}); end;\narchitecture r of wide is")
    print("signal f : std_logic := '0';\nsignal " + ", ".join(f"s{k}" for k in range(1, n - 1)) + " : " + V + ";\nbegin\ns1 <= x;")
    print("process (clk) begin if rising_edge(clk) then f <= not f; end if; end process;")
    for k in range(2, n - 1):
        print(f"s{k} <= not s{k // 2};")
elif form == "chain":
    print("library ieee; use ieee.std_logic_1164.all;\nentity wide is port (x : in std_logic); end;\narchitecture r of wide is")
    print("signal " + ", ".join(f"s{k}" for k in range(n)) + " : std_logic;\nbegin\ns0 <= x;")
    for k in range(1, n):
        print(f"s{k} <= not s{k - 1};")
elif form == "pairs":
    W = "std_logic_vector(31 downto 0)"
    print(HEAD + f"use ieee.numeric_std.all;\nentity wide is port (clk : in std_logic; y : out {W}); end;\narchitecture r of wide is")
    print("signal " + ", ".join(f"q{k}" for k in range(n)) + " : unsigned(31 downto 0) := (others => '0');")
    print("signal " + ", ".join(f"x{k}" for k in range(n - 1)) + " : " + W + ";\nbegin")
    for k in range(n):
        print(f"process (clk) begin if rising_edge(clk) then q{k} <= q{k} + {k + 1}; end if; end process;")
    for k in range(n - 1):
        print(f"x{k} <= std_logic_vector(q{k}) xor std_logic_vector(q{k + 1});")
    print(f"y <= x{n - 2};")
else:
    i = n // 4
    print(
        HEAD
        + f"entity part is port (a : in std_logic); end;\narchitecture r of part is\nsignal p, q, t, u : {V};\nbegin\np <= (others => a);\nq <= not p;\nt <= not q;\nu <= not t;\nend;"
    )
    print(HEAD + "entity wide is end;\narchitecture r of wide is\nsignal x : std_logic := '0';\nbegin")
    print(f"g: for i in 0 to {min(i, 4096) - 1 - (i == 4096)} generate u: entity work.part port map (x); end generate;")
print("end;")
