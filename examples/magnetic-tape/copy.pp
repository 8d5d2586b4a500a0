*         COPY THE RECORDS OF A TAPE UP TO A FILE MARK, WRITE A MARK
*         BEHIND THEM, AND REWIND BOTH TAPES.
          BASE   OCTAL
 IN       EQU    5           CHANNEL OF THE TAPE THAT IS READ
 OUT      EQU    6           CHANNEL OF THE TAPE THAT IS WRITTEN
 LEFT     EQU    20          CELL - WORDS THAT WERE NOT READ
 RECORDS  EQU    21          CELL - RECORDS COPIED
 STATUS   EQU    22          CELL - STATUS OF THE TAPE THAT WAS READ
 MOST     EQU    1000        WORDS OF A RECORD
 BUFFER   EQU    1000
          ORG    100
 START    FNC    1400,IN     READ A RECORD
          ACN    IN
          LDC    MOST
          IAM    BUFFER,IN   UNTIL THE TAPE DISCONNECTS
          STD    LEFT
          LDC    MOST
          SBD    LEFT
          ZJN    END         IF IT WAS A MARK, OR THERE IS NO MORE
          FNC    1600,OUT    WRITE IT
          ACN    OUT
          OAM    BUFFER,OUT
          FJM    *,OUT       UNTIL THE LAST WORD IS TAKEN
          DCN    OUT         THE RECORD ENDS HERE
          AOD    RECORDS
          UJN    START
 END      FNC    1300,IN     ASK WHAT IT WAS
          ACN    IN
          IAN    IN
          DCN    IN
          STD    STATUS
          FNC    15,OUT      WRITE A MARK
          FNC    10,IN       REWIND
          FNC    10,OUT
          UJN    *
          END    START
