*         ADD THE NUMBERS OF A TABLE.
          BASE   OCTAL
 NEXT     EQU    20          CELL - ADDRESS OF THE NEXT NUMBER
 LEFT     EQU    21          CELL - NUMBERS LEFT
 SUM      EQU    22          CELL - THEIR SUM
          ORG    200
          CON    1,2,4,10,20,40,100,200
          ORG    300
          CON    7777
          ORG    100
 START    LDN    0
          STD    SUM
          LDD    LEFT
          ZJN    DONE        IF THERE ARE NONE
 LOOP     LDI    NEXT
          RAD    SUM
          AOD    NEXT
          SOD    LEFT
          NJN    LOOP
 DONE     UJN    *
          END
