*         A PROCESSOR ASKS ITS MONITOR FOR A CHANNEL AND THE TIME.
*         FROM MEMORY OF NOS, UNCHECKED: CELLS CM, IR, IA, OA, MA; THE IDLE LOOP; FTN CLEARS NO REGISTER ITSELF.
*         INVENTED: THE NUMBERS OF THE FUNCTIONS, AND WHAT THE ROUTINE DOES.
          BASE   OCTAL
 CM       EQU    10          FIVE CELLS FOR A CENTRAL WORD
 TM       EQU    20          THE TIME
 IR       EQU    50          THE INPUT REGISTER
 IA       EQU    75          ADDRESS OF THE INPUT REGISTER
 OA       EQU    76          ADDRESS OF THE OUTPUT REGISTER
 MA       EQU    77          ADDRESS OF THE MESSAGE BUFFER
 RCH      EQU    1           RESERVE A CHANNEL
 DCH      EQU    2           DROP A CHANNEL
 RTM      EQU    3           READ THE TIME
 EPP      EQU    4           END
 CH       EQU    5           THE CHANNEL
          ORG    100
*         IDLE: WAIT FOR A NAME IN THE INPUT REGISTER.
 IDLE     LDD    IA
          CRD    IR
          LDD    IR
          ZJN    IDLE
          LDN    CH          RESERVE THE CHANNEL
          STD    CM+1
          LDN    RCH
          RJM    FTN
          LDN    RTM         READ THE TIME
          RJM    FTN
          LDD    MA
          CRD    TM
          ACN    CH          HERE IT WOULD USE THE CHANNEL
          DCN    CH
          LDN    CH          DROP IT
          STD    CM+1
          LDN    DCH
          RJM    FTN
          LDN    EPP         THE END
          RJM    FTN
          UJN    IDLE
*         FTN: PUT FUNCTION (A) AND CM+1 TO CM+4 INTO THE OUTPUT REGISTER, AND WAIT UNTIL IT IS CLEARED.
 FTN      SUBR
          STD    CM
          LDD    OA
          CWD    CM
 FTN1     LDD    OA
          CRD    CM
          LDD    CM
          NJN    FTN1
          UJN    FTNX
          END    IDLE
