" Colours of sources of CDC 6600 peripheral processors. Made by share/colours.
if exists('b:current_syntax')
  finish
endif
syntax case ignore
syntax match pp6600Line /^/ nextgroup=pp6600Label,pp6600Gap
syntax match pp6600Gap /\s\+/ contained nextgroup=pp6600Instruction,pp6600Directive,pp6600Macro,pp6600Refused,pp6600Other
syntax match pp6600Label / \?[^ \t*]\S*/ contained nextgroup=pp6600Gap
syntax match pp6600Other /\S\+/ contained nextgroup=pp6600Far,pp6600Blanks
syntax match pp6600Instruction /\%(ACN\|ADC\|ADD\|ADI\|ADM\|ADN\|AJM\|AOD\|AOI\|AOM\|CRD\|CRM\|CWD\|CWM\|DCN\|EJM\|EXN\|FAN\|FJM\|FNC\|IAM\|IAN\|IJM\|LCN\|LDC\|LDD\|LDI\|LDM\|LDN\|LJM\|LMC\|LMD\|LMI\|LMM\|LMN\|LPC\|LPN\|MJN\|NJN\|OAM\|OAN\|PJN\|PSN\|RAD\|RAI\|RAM\|RJM\|RPN\|SBD\|SBI\|SBM\|SBN\|SCN\|SHN\|SOD\|SOI\|SOM\|STD\|STI\|STM\|UJN\|ZJN\)\ze\%(\s\|$\)/ contained nextgroup=pp6600Far,pp6600Blanks
syntax match pp6600Directive /\%(=\|ABS\|ADK\|BASE\|BSS\|BSSZ\|CODE\|COL\|COMMENT\|CON\|CTEXT\|DATA\|DECMIC\|DIS\|EJECT\|END\|ENDX\|ENTRY\|EQU\|ERR\|ERRMI\|ERRNG\|ERRNZ\|ERRPL\|ERRZR\|IDENT\|LCC\|LDK\|LIST\|LIT\|LOC\|MAX\|MICCNT\|MICRO\|MIN\|NIL\|NOLABEL\|NOREF\|OCTMIC\|ORG\|PERIPH\|POS\|QUAL\|SEG\|SET\|SPACE\|SST\|TITLE\|TTL\|USE\|VFD\|XREF\)\ze\%(\s\|$\)/ contained nextgroup=pp6600Far,pp6600Blanks
syntax match pp6600Macro /\%(DUP\|ECHO\|ELSE\|ENDD\|ENDIF\|ENDM\|IF\|IFC\|IFCP\|IFEQ\|IFGE\|IFGT\|IFLE\|IFLT\|IFMI\|IFNE\|IFPL\|IFPP\|IRP\|LOCAL\|MACRO\|MACROE\|RMT\|SKIP\|STOPDUP\|SUBR\)\ze\%(\s\|$\)/ contained nextgroup=pp6600Far,pp6600Blanks
syntax match pp6600Refused /\%(CCF\|CFM\|EXT\|IAPM\|MAN\|MXN\|OAPM\|OPDEF\|ORGC\|PPOP\|PPU\|SCF\|SEGMENT\|SFM\|STEXT\)\ze\%(\s\|$\)/ contained nextgroup=pp6600Far,pp6600Blanks
syntax match pp6600Blanks /\s\+/ contained nextgroup=pp6600Operand
syntax match pp6600Operand /\S\+/ contained contains=pp6600Number nextgroup=pp6600Comment
syntax match pp6600Number /\<\d\+[BDO]\?\>/ contained
syntax match pp6600Comment /\s.*/ contained
syntax match pp6600Far /\s\s\+\%>29v\S.*/ contained
syntax match pp6600Note /^\*.*/

highlight default link pp6600Note Comment
highlight default link pp6600Comment Comment
highlight default link pp6600Far Comment
highlight default link pp6600Label Function
highlight default link pp6600Instruction Statement
highlight default link pp6600Directive PreProc
highlight default link pp6600Macro Macro
highlight default link pp6600Refused Error
highlight default link pp6600Number Number
let b:current_syntax = 'pp6600'
