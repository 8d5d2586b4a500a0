*         LOAD A FIVE, STORE IT INTO CELL 0020, AND STAY.
          BASE   OCTAL
          ORG    100
 START    LDN    5
          STD    20
          UJN    *
          END    START
