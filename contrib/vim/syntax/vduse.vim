" Vim syntax: scripts of vduse run.
if exists('b:current_syntax')
  finish
endif

syntax match vduseComment '^#.*$'
syntax match vduseNumber '\<\(0x[0-9a-f]\{1,16}\|[1-9][0-9]*\|0\)\>'
syntax match vdusePart '\<[rw]:[0-9a-fx]\+:[0-9a-fx]\+\>'

syntax match vduseControl '^\(version\|setversion\|create\|destroy\|dev\|control\|tick\|image\)\>'
syntax match vduseNode '^\(open\|close\|features\|setconfig\|configirq\|vqsetup\|vqinfo\|kickfd\|kicks\|irq\|recv\|answer\|read\|write\|ioctl\)\>'
syntax match vduseMemory '^\(lookup\|iovainfo\|area\|areaput\|areaget\|regumem\|deregumem\|load\|store\)\>'
syntax match vduseBus '^\(attach\|detach\|offered\|setfeatures\|getstatus\|setstatus\|reset\|vqnum\|vqaddr\|vqready\|setvqstate\|getvqstate\|kick\|callback\|irqs\|getconfig\|timeout\|take\)\>'
syntax match vduseDriver '^\(buf\|zeros\|free\|poke\|peek\|map\|unmap\|syncdev\|synccpu\|coherent\|freecoherent\|cput\|cget\)\>'
syntax match vduseQueue '^\(ring\|unring\|add\|publish\|submit\|poll\|walk\|fetch\|execute\|finish\)\>'
syntax match vduseDirection ' \zs\(to\|from\|both\)$'
syntax match vduseRequest '^submit \S\+ \S\+ \zs\(read\|write\|flush\|id\)\>'

highlight default link vduseComment Comment
highlight default link vduseNumber Number
highlight default link vdusePart Special
highlight default link vduseControl PreProc
highlight default link vduseNode Function
highlight default link vduseMemory Identifier
highlight default link vduseBus Type
highlight default link vduseDriver Statement
highlight default link vduseQueue Keyword
highlight default link vduseDirection Constant
highlight default link vduseRequest Constant

let b:current_syntax = 'vduse'
