*         DRAW ON BOTH SCREENS OF THE CONSOLE DISPLAY AGAIN AND AGAIN, TEXT
*         IN THREE SIZES, THE CLOCK, THE LAST KEY, THE PROCESSORS.
          BASE   OCTAL
 DD       EQU    10          CHANNEL OF THE DISPLAY
 CLOCK    EQU    14          CHANNEL OF THE CLOCK
 NOW      EQU    20          CELL - THE CLOCK
 UPPER    EQU    21          CELL - A DIGIT, AS THE UPPER SYMBOL
*         SHOW WORDS FROM CELL FIRST TO BEFORE CELL LAST.
 SHOW     MACRO  CODE,FIRST,LAST
          FNC    CODE,DD
          ACN    DD
          LDC    LAST-FIRST
          OAM    FIRST,DD
          FJM    *,DD        UNTIL THE LAST WORD IS TAKEN
          DCN    DD
          ENDM
*         A TEXT AT X AND Y.
 TEXT     MACRO  X,Y,SYMBOLS
          CON    6000+X,7000+Y
          DATA   H*SYMBOLS*
          ENDM
          ORG    100
 START    SHOW   7002,LARGE,MEDIUM
          SHOW   7001,MEDIUM,SMALL
          SHOW   7000,SMALL,NAMES
          SHOW   7101,NAMES,TIME
          SHOW   7102,TIME,DOTS
          SHOW   7110,DOTS,LAST
          IAN    CLOCK
          STD    NOW
          SHN    -11         FIRST DIGIT
          SHN    6
          STD    UPPER
          LDD    NOW
          SHN    -6          SECOND
          LPN    7
          ADD    UPPER
          ADC    2R00
          STM    DIGITS
          LDD    NOW
          SHN    -3          THIRD
          LPN    7
          SHN    6
          STD    UPPER
          LDD    NOW         FOURTH
          LPN    7
          ADD    UPPER
          ADC    2R00
          STM    DIGITS+1
          FNC    7020,DD     THE KEYBOARD
          ACN    DD
          IAN    DD
          DCN    DD
          ZJN    AGAIN       IF NO KEY WAS PRESSED
          STM    KEY
 AGAIN    LJM    START
 LARGE    BSS    0
          TEXT   200,640,(CDC 6600)
 MEDIUM   BSS    0
          TEXT   130,560,(PERIPHERAL PROCESSORS)
          TEXT   310,200,(KEY )
 KEY      CON    0
 SMALL    BSS    0
          TEXT   120,440,(A PROCESSOR DRAWS THIS AGAIN AND AGAIN,)
          TEXT   120,420,(A WORD AT A TIME, AND IT GOES BACK WITH THE)
          TEXT   120,400,(RUN TO ANY TURN.)
 NAMES    BSS    0
          TEXT   140,640,(PP 00)
          TEXT   140,600,(PP 01)
          TEXT   140,540,(PP 02)
          TEXT   140,500,(PP 03)
          TEXT   140,440,(PP 04)
          TEXT   520,640,(PP 05)
          TEXT   520,600,(PP 06)
          TEXT   520,540,(PP 07)
          TEXT   520,500,(PP 10)
          TEXT   520,440,(PP 11)
 TIME     CON    6310,7200
 DIGITS   CON    2R00,2R00
*         DOTS ABOVE AND BELOW THE CLOCK.
 DOTS     CON    6260,7160,6320,7160,6360,7160,6420,7160,6460,7160
          CON    6520,7160,6260,7260,6320,7260,6360,7260,6420,7260
          CON    6460,7260,6520,7260
 LAST     BSS    0
          END    START
