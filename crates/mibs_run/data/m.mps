NAME          MOOREBARD
ROWS
 N  COST
 L  C1
 L  C2
 L  C3
 G  C4
COLUMNS
    MARKER1   'MARKER'  'INTORG'
    X         COST      -1   C1   -25
    X         C2         1   C3     2
    X         C4         2
    Y         COST     -10   C1    20
    Y         C2         2   C3    -1
    Y         C4        10
    MARKER2   'MARKER'  'INTEND'
RHS
    RHS       C1        30   C2    10
    RHS       C3        15   C4    15
BOUNDS
 UP BND       X         10
 UP BND       Y         10
ENDATA
