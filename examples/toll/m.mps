* An authority sets a toll on the fast road and earns it where the traveller takes that road.
NAME          TOLL
OBJSENSE
    MAX
ROWS
 N  EARNED
* One of the two roads is taken.
 E  ONEROAD
* Where the fast road is taken, the revenue is at least the toll: TOLL + 5 FAST - REVENUE <= 5.
 L  PAID
COLUMNS
    MARKER1   'MARKER'  'INTORG'
    TOLL      PAID         1
    FAST      ONEROAD      1   PAID         5
    SLOW      ONEROAD      1
    REVENUE   EARNED       1   PAID        -1
    MARKER2   'MARKER'  'INTEND'
RHS
    RHS       ONEROAD      1   PAID         5
BOUNDS
 UP BND       TOLL      5
 BV BND       FAST
 BV BND       SLOW
 UP BND       REVENUE   5
ENDATA
