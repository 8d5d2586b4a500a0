          IDENT  1QQ,QQQ
          PERIPH
          TITLE  1QQ, COUNT THE SYMBOLS OF A TEXT
*
*         A ROUTINE IN THE STYLE OF SCOPE.  NUMBERS ARE DECIMAL, AS
*         THERE IS NO BASE, AND A SUBROUTINE RETURNS BY A JUMP TO THE
*         WORD BEFORE ITS NAME.
*
*         IN CELL D.Z0 IT LEAVES HOW MANY SYMBOLS E THERE ARE IN THE
*         TEXT, IN D.Z0+1 HOW MANY BLANKS, AND IN D.Z0+2 THE FUNCTION
*         OF THE LAST REQUEST.
*
          XTEXT  PPSYM
          SPACE  2
DEBUG     EQU    0
WORDS     EQU    20
          SPACE  2
*         MACROS
ADDCON    MACRO  CELL,N
          LOCAL  NONE
          LDD    CELL
          IFEQ   N,1,2
          ADN    1
          SKIP   1
          ADN    N
          STD    CELL
NONE      BSS    0
          ENDM
COUNT     MACRO  SIGN,CELL
          LOCAL  NO
          LMN    SIGN
          NJN    NO
          ADDCON CELL,1
NO        BSS    0
          ENDM
          EJECT
          ORG    C.PPFWA
QQQ       LDN    0
          STD    D.Z0
          STD    D.Z0+1
          STD    D.T1
          LDN    1
          STD    D.PPONE
Q.LOOP    LDM    TEXT,D.T1
          SHN    -6
          RJM    TEST
          LDM    TEXT,D.T1
          LPN    77B
          RJM    TEST
          AOD    D.T1
          LMN    WORDS
          NJN    Q.LOOP
          LDN    M.RCH
          RJM    CALL
          LDC    -1
          STM    DONE
          UJN    *
DONE      DATA   0
          SPACE  2
*         TEST COUNTS A SYMBOL THAT IS IN A
          LJM    **
TEST      EQU    *-1
          STD    D.T2
          COUNT  1RE,D.Z0
          LDD    D.T2
          LMN    1R
          NJN    TEST-1
          ADDCON D.Z0+1,1
          UJN    TEST-1
          SPACE  2
*         CALL KEEPS A REQUEST TO THE MONITOR
          LJM    **
CALL      EQU    *-1
          STD    D.Z0+2
          IFNE   DEBUG,0,2
          RJM    TEST
          UJN    *
          STM    REQ
          UJN    CALL-1
          SPACE  2
*         CONSTANTS
REQ       VFD    12/0,24/3RQQQ,6/1S3,6/M.DFM
LIST      VFD    6/1
          VFD    6/2
          VFD    12/LIST
TABLE     CON    10,10B,L.BUF,QQQ
          DATA   17,17B,-1,2HAB,0LABC
          USE    TEXT
TEXT      DIS    20,THREE GREEN TREES, SEEN BETWEEN THE                         00710
          USE
          CON    TEXT
          END    QQQ
