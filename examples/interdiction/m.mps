NAME          INTERDICTION
ROWS
 N  COST
 L  BUDGET
 L  KEPT1
 L  KEPT2
 L  KEPT3
 L  ROOM
COLUMNS
    MARKER1   'MARKER'  'INTORG'
    STOP1     BUDGET       1   KEPT1        1
    STOP2     BUDGET       1   KEPT2        1
    STOP3     BUDGET       1   KEPT3        1
    TAKE1     COST         5   KEPT1        1
    TAKE1     ROOM         2
    TAKE2     COST         4   KEPT2        1
    TAKE2     ROOM         3
    TAKE3     COST         3   KEPT3        1
    TAKE3     ROOM         2
    MARKER2   'MARKER'  'INTEND'
RHS
    RHS       BUDGET       1
    RHS       KEPT1        1
    RHS       KEPT2        1
    RHS       KEPT3        1
    RHS       ROOM         4
BOUNDS
 UP BND       STOP1     1
 UP BND       STOP2     1
 UP BND       STOP3     1
 UP BND       TAKE1     1
 UP BND       TAKE2     1
 UP BND       TAKE3     1
ENDATA
