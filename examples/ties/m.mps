NAME          TIES
ROWS
 N  COST
 L  DEMAND
 L  DOCK
COLUMNS
    MARKER1   'MARKER'  'INTORG'
    ORDER     COST        -2   DEMAND       1
    NORTH     DEMAND      -1
    SOUTH     COST        -1   DEMAND      -1
    SOUTH     DOCK         1
    MARKER2   'MARKER'  'INTEND'
RHS
    RHS       DOCK         1
BOUNDS
 UP BND       ORDER     3
 UP BND       NORTH     2
 UP BND       SOUTH     2
ENDATA
