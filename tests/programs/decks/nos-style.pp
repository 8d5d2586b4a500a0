          IDENT  1ZZ,PPFW                                             1ZZ     1
          PERIPH                                                      1ZZ     2
          BASE   MIXED                                                1ZZ     3
          SST                                                         1ZZ     4
          TITLE  1ZZ - SUMS AND TEXTS.                                1ZZ     5
*COMMENT  1ZZ - SUMS AND TEXTS.                                       1ZZ     6
          COMMENT SUMS AND TEXTS.                                     1ZZ     7
          SPACE  4,10
***       1ZZ - SUMS AND TEXTS.
*
*         A ROUTINE IN THE STYLE OF THE PROGRAMS OF NOS.  IT PERFORMS
*         THE FUNCTIONS OF A LIST, AND STAYS WHERE IT IS.
*
*         ENTRY  (LIST) = FUNCTIONS, ENDED BY ZERO.
*
*         EXIT   (SUM) = SUM OF THE TABLE.
*                (CNT) = FUNCTIONS PERFORMED.
*                (BUF) = A TEXT, ENDED BY ZERO.
*                (OVR) = WHAT THE OVERLAY LEFT.
          SPACE  4,10
*         COMMON DECKS.

 PPCOM    XTEXT
*CALL     COMPMAC
          SPACE  4
*         DIRECT CELLS OF THIS PROGRAM.

 CNT      EQU    30          FUNCTIONS PERFORMED
 SUM      EQU    31          SUM OF A TABLE
 OVR      EQU    32          WHAT THE OVERLAY LEFT
 PTR      EQU    33          POINTER TO THE LIST
          SPACE  4,10
*         MACROS.

 .N       SET    0


**        OVERLAY - BEGIN AN OVERLAY.
*
*         OVERLAY (TEXT)

 OVERLAY  MACRO  TEXT
          QUAL
          NOREF  .N,.M,.O
 .N       SET    .N+1
 .M       MICRO  .N,1, ABCDEFGHIJKLMNOPQRSTUVWXYZ
 .O       MICRO  1,3, 3Z".M"
          QUAL   ".O"
          TTL    1ZZ/".O" - TEXT
          IDENT  ".O",OVLA   TEXT
          ORG    OVLA
          ENDM


**        ENTER - AN ENTRY OF THE LIST OF FUNCTIONS.

 ENTER    MACRO  FN,A,B
 .1       IFC    EQ,$B$$
          VFD    6/FN,6/A
 .1       ELSE
          VFD    6/FN
          VFD    6/A
          ERRNZ  B
 .1       ENDIF
          ENDM
          TITLE  MAIN PROGRAM.
 ZZZ      SPACE  4
**        ZZZ - MAIN PROGRAM.

          ORG    PPFW
 ZZZ      RJM    PRS         PRESET
 ZZZ1     LDI    PTR         NEXT FUNCTION
          ZJN    ZZZ2        IF THE END OF THE LIST
          AOD    PTR
          SOD    PTR         (THAT THE CELL IS ONE THAT COUNTS)
          LDI    PTR
          SHN    -6
          STD    T1
          SBN    TFCNL
          PJN    ZZZ2        IF NO FUNCTION
          RJM    DSP         DISPATCH
          AOD    PTR
          AOD    CNT
          UJN    ZZZ1

 ZZZ2     STORE  7777B,(END,END+1)
          UJN    *

 END      BSSZ   2
 DSP      SPACE  4,10
**        DSP - DISPATCH A FUNCTION.
*
*         ENTRY  (T1) = FUNCTION.
*                (PTR) = ADDRESS OF ITS ENTRY.
*
*         USES   T2.
*
*         CALLS  ADD, CPY.


 DSP      SUBR               ENTRY/EXIT
          LDM    TFCN,T1
          STM    DSPA
          LDI    PTR
          LPN    77B
          RJM    **
 DSPA     EQU    *-1
          UJN    DSPX        RETURN


 TFCN     BSS    0           TABLE OF FUNCTIONS
          LOC    0
          CON    DSP         0 - NONE
          CON    ADD         1 - ADD THE TABLE
          CON    CPY         2 - COPY THE TEXT
 TFCNL    BSS    0
          LOC    *O
 ADD      SPACE  4,10
**        ADD - ADD THE WORDS OF THE TABLE.
*
*         ENTRY  (A) = HOW MANY WORDS.


 ADD      SUBR               ENTRY/EXIT
          STD    T2
 ADD1     SOD    T2
          MJN    ADDX        IF ALL ARE ADDED
          LDM    TADD,T2
          RAD    SUM
          UJN    ADD1        LOOP

 TADD     CON    1,2,4,10B,20B
          DATA   3,7
 CPY      SPACE  4,10
**        CPY - COPY THE TEXT TO THE BUFFER.
*
*         ENTRY  (A) = HOW MANY WORDS.


 CPY      SUBR               ENTRY/EXIT
          STD    T2
          LDN    0
          STM    BUF,T2
 CPY1     SOD    T2
          MJN    CPYX        IF ALL ARE COPIED
          LDM    =C*HELLO, OPERATOR*,T2
          STM    BUF,T2
          UJN    CPY1        LOOP
          SPACE  4
*         THE LIST OF FUNCTIONS.

 LIST     BSS    0
          ENTER  1,7
          ENTER  2,8D,0
          ENTER  1,2
          CON    0
          SPACE  4
*         BUFFERS.

          USE    BUFFERS
 BUF      BSS    BUFL
 BUFE     BSS    0
 OVLA     EQU    2000B       WHERE OVERLAYS ARE LOADED
          USE    *
 PRS      SPACE  4,10
**        PRS - PRESET.


 PRS      SUBR               ENTRY/EXIT
          LDC    LIST
          STD    PTR
          LDN    ZERL
          STD    CNT
          STD    SUM
          LDM    CONS
          STD    ON
          LDM    CONS+1
          STD    HN
          UJN    PRSX        RETURN

 CONS     LIT    1,100B,1000B
 ZERL     EQU    0
          OVERLAY (A SECOND PROGRAM.)
 ENT      LDN    5
          STD    OVR
          LJM    ZZZ
          OVERLAY (A THIRD ONE.)
 ENT      LDM    /3ZA/ENT
          STD    OVR
          LJM    ENT
          QUAL
          END
