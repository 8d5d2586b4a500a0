*         WAIT UNTIL THE CLOCK HAS GONE ON BY 40.
          BASE   OCTAL
 CLOCK    EQU    14          CHANNEL
 FIRST    EQU    20          CELL - THE CLOCK AT THE START
 LAST     EQU    21          CELL - THE CLOCK AT THE END
          ORG    100
 START    IAN    CLOCK
          STD    FIRST
 AGAIN    IAN    CLOCK
          SBD    FIRST
          PJN    SINCE       IF THE CLOCK HAS NOT GONE ROUND
          ADC    10000
 SINCE    SBN    40
          MJN    AGAIN
          IAN    CLOCK
          STD    LAST
          UJN    *
          END    START
