"""The second implementation, tests/oracle/oracle.py, as every script of this folder asks it: at the state that the library has."""
from oracle import oracle

# how many of document 02's requests the library has; 0 is document 01 alone
LANDED = 8

oracle.LANDED = LANDED
