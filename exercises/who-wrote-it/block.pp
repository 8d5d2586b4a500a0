*         PP 02 CLEARS WORDS OF CENTRAL MEMORY, FROM 1002 ON.
          BASE   OCTAL
          ORG    30
 COUNT    CON    4           WORDS
          ORG    100
 START    LDC    1002
          CWM    ZEROS,COUNT
          UJN    *
 ZEROS    EQU    200         CELLS THAT ARE ZERO
          END    START
