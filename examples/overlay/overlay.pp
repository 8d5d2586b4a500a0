*         AN OVERLAY FOR AN OLDER RESIDENT.  IT STORES ITS RESULT WHERE THE
*         RETURN ADDRESS OF A SUBROUTINE IS NOW.
          BASE   OCTAL
 AT       EQU    10          NUMBER OF THE WORD THAT IS MOVED
          ORG    20
 ITEMS    CON    17,25
          ORG    100
 START    RJM    WORK
          UJN    *           DONE
*         MOVE THE OVERLAY TO ITS PLACE, AND JUMP TO IT.
 WORK     SUBR
          LDN    0
          STD    AT
 MOVE     LDM    IMAGE,AT
          STM    SUM,AT
          AOD    AT
          LMN    SIZE
          NJN    MOVE
          LJM    SUM
*         THE OVERLAY: THE SUM OF TWO CELLS.
 RESULT   EQU    104         WAS A FREE CELL IN THE OLDER RESIDENT
 IMAGE    EQU    *O
          LOC    300
 SUM      LDD    ITEMS
          ADD    ITEMS+1
          STM    RESULT
          LJM    WORKX
 SIZE     EQU    *-SUM
          END    START
