*         FIND THE ZERO AT THE END OF A TABLE.
          BASE   OCTAL
 NEXT     EQU    20          CELL - ADDRESS OF THE NEXT NUMBER
          ORG    100
 START    LDC    TABLE
          STD    NEXT
 LOOP     LDI    NEXT        THE NUMBER AT THAT ADDRESS
          ZJN    DONE        IF IT IS THE ZERO
          AOD    NEXT
          UJN    LOOP
 DONE     UJN    *
 TABLE    CON    7,5,0
          END    START
