*         EXCHANGE WITH TWO PACKAGES, AND STORE P OF EACH.
          BASE   OCTAL
          ORG    100
 START    LDC    1000
          EXN
          RPN
          STD    20
          LDC    1000        THE FIRST PACKAGE GOES HOME
          EXN
          LDC    1020
          EXN
          RPN
          STD    21
          UJN    *
          END    START
