 PPSYM    CTEXT  SYMBOLS OF THE SYSTEM
*         CELLS OF A PROGRAM
 D.T0     EQU    0
 D.T1     EQU    1
 D.T2     EQU    2
 D.Z0     EQU    10B
 D.PPONE  EQU    70B
*         PLACES
 C.PPFWA  EQU    1000B
 L.BUF    EQU    20
*         FUNCTIONS OF THE MONITOR
 M.DFM    EQU    1
 M.RCH    EQU    2
          ENDX
