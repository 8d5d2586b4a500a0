*         PRINT THE DISPLAY CODE: A HEADING, AND EIGHT LINES OF A DIGIT
*         AND EIGHT SYMBOLS.
          BASE   OCTAL
 LP       EQU    13          PRINTER
          ORG    20
 LINES    CON    10          LINES LEFT
 NEXT     CON    1           THE NEXT TWO SYMBOLS
          ORG    30
 LINE     DATA   H*  01234567*
 WORDS    EQU    *-LINE
          ORG    100
 START    FNC    1,LP        BEGIN TO PRINT
          RJM    PRINT       THE HEADING
          LDC    2R0         DIGIT 0 AND A BLANK
          STD    LINE
 LOOP     LDD    NEXT
          STD    LINE+1
          ADC    202         THE TWO SYMBOLS AFTER THESE
          STD    LINE+2
          ADC    202
          STD    LINE+3
          ADC    202
          STD    LINE+4
          ADC    202
          STD    NEXT
          RJM    PRINT
          LDC    100         THE NEXT DIGIT
          RAD    LINE
          SOD    LINES
          NJN    LOOP
          UJN    *
*         PRINT THE LINE.
          ORG    157
 PRINTX   LJM    **          RJM PUTS THE RETURN ADDRESS HERE
 PRINT    EQU    *-1
          ACN    LP
          LDN    WORDS
          OAM    LINE,LP
          FJM    *,LP        UNTIL THE LAST WORD IS TAKEN
          DCN    LP
          FNC    3,LP        END OF LINE
          UJN    PRINTX
          END    START
