#!/usr/bin/env python3
"""What `lines` makes of the program's texts, and that it makes them back: tests/lines.py [PROGRAM] [--damage]

TOLD has texts with the JSON that each of their lines is to become, and WORKED more texts, both written by hand from the formats;
besides there are all texts of crates/cli_rows/stdout, the refusals of tests/bundles/rows.json, and, with PROGRAM, what it answers of
the bundles in examples/. Each becomes JSON lines and the same bytes again. A damaged text is refused or comes back as it is, never as
another; damaged JSON lines are refused, or give a text that tells the same. Without --damage it is a part of the texts, of their
bytes and of other values for members, which takes some ten seconds, and with it some minutes. The last line is 'N passed, M failed'.
"""

import contextlib
import io
import itertools
import json
import os
import random
import subprocess
import sys
import tempfile

TOP = os.path.dirname(os.path.dirname(os.path.abspath(__file__)))
sys.path.insert(0, TOP)

from scripts import lines as script

# Each line of a text, and below it what it tells. An empty line ends a text.
TOLD = """
hop 1 out eni-a tcp 10.0.1.10 10.0.2.20 5000 443 by sg-a out 1
{"text":"trace","line":"hop","n":1,"place":"out","id":"eni-a","proto":"tcp","src":"10.0.1.10","dst":"10.0.2.20","p":5000,"q":443,"by":"rule","group":"sg-a","direction":"out","rule":"1"}
hop 2 router subnet-a tcp 10.0.1.10 10.0.2.20 5000 443
{"text":"trace","line":"hop","n":2,"place":"router","id":"subnet-a","proto":"tcp","src":"10.0.1.10","dst":"10.0.2.20","p":5000,"q":443}
hop 3 in eni-f tcp 10.0.1.10 10.0.2.20 5000 443 by none
{"text":"trace","line":"hop","n":3,"place":"in","id":"eni-f","proto":"tcp","src":"10.0.1.10","dst":"10.0.2.20","p":5000,"q":443,"by":"none"}
hop 4 out eni-f tcp 10.0.1.10 10.0.2.20 5000 443 by none
{"text":"trace","line":"hop","n":4,"place":"out","id":"eni-f","proto":"tcp","src":"10.0.1.10","dst":"10.0.2.20","p":5000,"q":443,"by":"none"}
hop 5 in eni-b tcp 10.0.1.10 10.0.2.20 5000 443 by sg-b in sgr-0123456789abcdef0
{"text":"trace","line":"hop","n":5,"place":"in","id":"eni-b","proto":"tcp","src":"10.0.1.10","dst":"10.0.2.20","p":5000,"q":443,"by":"rule","group":"sg-b","direction":"in","rule":"sgr-0123456789abcdef0"}
arrived eni-b
{"text":"trace","line":"arrived","id":"eni-b"}

hop 1 out eni-b 50 10.0.2.20 10.0.1.10 0 0
{"text":"trace","line":"hop","n":1,"place":"out","id":"eni-b","proto":50,"src":"10.0.2.20","dst":"10.0.1.10","p":0,"q":0}
stopped GroupsOut eni-b -
{"text":"trace","line":"stopped","name":"GroupsOut","id":"eni-b","rule":null}

hop 1 far-in att-vpn tcp 172.20.0.1 172.30.0.1 5 443
{"text":"trace","line":"hop","n":1,"place":"far-in","id":"att-vpn","proto":"tcp","src":"172.20.0.1","dst":"172.30.0.1","p":5,"q":443}
hop 2 far-out att-dx tcp 172.20.0.1 172.30.0.1 5 443
{"text":"trace","line":"hop","n":2,"place":"far-out","id":"att-dx","proto":"tcp","src":"172.20.0.1","dst":"172.30.0.1","p":5,"q":443}
arrived att-dx
{"text":"trace","line":"arrived","id":"att-dx"}

hop 1 far-in vgw-1 tcp 172.20.0.1 10.0.1.10 5000 443
{"text":"why","line":"hop","n":1,"place":"far-in","id":"vgw-1","proto":"tcp","src":"172.20.0.1","dst":"10.0.1.10","p":5000,"q":443}
hop 2 enter vpc-1 tcp 172.20.0.1 10.0.1.10 5000 443
{"text":"why","line":"hop","n":2,"place":"enter","id":"vpc-1","proto":"tcp","src":"172.20.0.1","dst":"10.0.1.10","p":5000,"q":443}
route rtb-edge 10.0.1.0/24 vpce-fw
{"text":"why","line":"route","table":"rtb-edge","reach":"10.0.1.0/24","target":"vpce-fw"}
acl acl-1 in 100 allow
{"text":"why","line":"acl","id":"acl-1","direction":"in","number":100,"verdict":"allow"}
hop 3 inspect vpce-fw tcp 172.20.0.1 10.0.1.10 5000 443
{"text":"why","line":"hop","n":3,"place":"inspect","id":"vpce-fw","proto":"tcp","src":"172.20.0.1","dst":"10.0.1.10","p":5000,"q":443}
stopped InspectDrop vpce-fw -
{"text":"why","line":"stopped","name":"InspectDrop","id":"vpce-fw","rule":null}

hop 1 internet internet udp 198.51.100.7 203.0.113.5 53 5000
{"text":"trace","line":"hop","n":1,"place":"internet","id":"internet","proto":"udp","src":"198.51.100.7","dst":"203.0.113.5","p":53,"q":5000}
stopped AclIn acl-1 32767
{"text":"trace","line":"stopped","name":"AclIn","id":"acl-1","rule":"32767"}

hop 1 out eni-a tcp 10.0.1.10 10.0.2.20 5000 443 by sg-a out 1
{"text":"why","line":"hop","n":1,"place":"out","id":"eni-a","proto":"tcp","src":"10.0.1.10","dst":"10.0.2.20","p":5000,"q":443,"by":"rule","group":"sg-a","direction":"out","rule":"1"}
group sg-a out 1
{"text":"why","line":"group","group":"sg-a","direction":"out","rule":"1"}
hop 2 router subnet-a tcp 10.0.1.10 10.0.2.20 5000 443
{"text":"why","line":"hop","n":2,"place":"router","id":"subnet-a","proto":"tcp","src":"10.0.1.10","dst":"10.0.2.20","p":5000,"q":443}
route rtb-main pl-inner nat-1
{"text":"why","line":"route","table":"rtb-main","reach":"pl-inner","target":"nat-1"}
acl acl-1 out 100 allow
{"text":"why","line":"acl","id":"acl-1","direction":"out","number":100,"verdict":"allow"}
hop 3 nat-out nat-1 tcp 10.0.1.10 10.0.2.20 5000 443
{"text":"why","line":"hop","n":3,"place":"nat-out","id":"nat-1","proto":"tcp","src":"10.0.1.10","dst":"10.0.2.20","p":5000,"q":443}
becomes tcp 10.0.3.5 10.0.2.20 5000 443
{"text":"why","line":"becomes","proto":"tcp","src":"10.0.3.5","dst":"10.0.2.20","p":5000,"q":443}
hop 4 router subnet-n tcp 10.0.3.5 10.0.2.20 5000 443
{"text":"why","line":"hop","n":4,"place":"router","id":"subnet-n","proto":"tcp","src":"10.0.3.5","dst":"10.0.2.20","p":5000,"q":443}
route rtb-main 10.0.0.0/16 local
{"text":"why","line":"route","table":"rtb-main","reach":"10.0.0.0/16","target":"local"}
acl acl-1 out 100 allow
{"text":"why","line":"acl","id":"acl-1","direction":"out","number":100,"verdict":"allow"}
acl acl-b in 32767 deny
{"text":"why","line":"acl","id":"acl-b","direction":"in","number":32767,"verdict":"deny"}
stopped AclIn acl-b 32767
{"text":"why","line":"stopped","name":"AclIn","id":"acl-b","rule":"32767"}

reachable
{"text":"ask","line":"reachable"}
packet icmp 10.0.1.10 10.0.2.20 0 2048
{"text":"ask","line":"packet","proto":"icmp","src":"10.0.1.10","dst":"10.0.2.20","p":0,"q":2048}
request
{"text":"ask","line":"request"}
hop 1 out eni-a icmp 10.0.1.10 10.0.2.20 0 2048 by sg-a out 1
{"text":"ask","phase":"request","line":"hop","n":1,"place":"out","id":"eni-a","proto":"icmp","src":"10.0.1.10","dst":"10.0.2.20","p":0,"q":2048,"by":"rule","group":"sg-a","direction":"out","rule":"1"}
hop 2 in eni-b icmp 10.0.1.10 10.0.2.20 0 2048 by none
{"text":"ask","phase":"request","line":"hop","n":2,"place":"in","id":"eni-b","proto":"icmp","src":"10.0.1.10","dst":"10.0.2.20","p":0,"q":2048,"by":"none"}
arrived eni-b
{"text":"ask","phase":"request","line":"arrived","id":"eni-b"}
reply
{"text":"ask","line":"reply"}
hop 1 out eni-b icmp 10.0.2.20 10.0.1.10 0 0 by none
{"text":"ask","phase":"reply","line":"hop","n":1,"place":"out","id":"eni-b","proto":"icmp","src":"10.0.2.20","dst":"10.0.1.10","p":0,"q":0,"by":"none"}
hop 2 in eni-a icmp 10.0.2.20 10.0.1.10 0 0 by tracked
{"text":"ask","phase":"reply","line":"hop","n":2,"place":"in","id":"eni-a","proto":"icmp","src":"10.0.2.20","dst":"10.0.1.10","p":0,"q":0,"by":"tracked"}
arrived eni-a
{"text":"ask","phase":"reply","line":"arrived","id":"eni-a"}

vpc-report 1
{"text":"ask","line":"vpc-report","version":1}
query from eni-a to internet
{"text":"ask","line":"query","from":"eni-a","to":"internet"}
box 6-6 10.0.1.10-10.0.1.10 0.0.0.0-255.255.255.255 0-65535 443-444
{"text":"ask","line":"box","proto":[6,6],"src":["10.0.1.10","10.0.1.10"],"dst":["0.0.0.0","255.255.255.255"],"p":[0,65535],"q":[443,444]}
row 1 request TgwBlackhole tgw-rtb-a 10.2.9.0/24 6-6 10.0.1.10-10.0.1.10 0.0.0.0-9.255.255.255 0-65535 443-444
{"text":"ask","line":"row","n":1,"phase":"request","name":"TgwBlackhole","id":"tgw-rtb-a","rule":"10.2.9.0/24","proto":[6,6],"src":["10.0.1.10","10.0.1.10"],"dst":["0.0.0.0","9.255.255.255"],"p":[0,65535],"q":[443,444]}
row 2 reply NoReply internet - 6-6 10.0.1.10-10.0.1.10 10.0.0.0-255.255.255.255 0-65535 443-444
{"text":"ask","line":"row","n":2,"phase":"reply","name":"NoReply","id":"internet","rule":null,"proto":[6,6],"src":["10.0.1.10","10.0.1.10"],"dst":["10.0.0.0","255.255.255.255"],"p":[0,65535],"q":[443,444]}
end 2
{"text":"ask","line":"end","n":2}

vpc-report 2
{"text":"ask","line":"vpc-report","version":2}
query from eni-a to internet
{"text":"ask","line":"query","from":"eni-a","to":"internet"}
box 0-255 10.0.1.10-10.0.1.11 0.0.0.0-255.255.255.255 0-65535 443-444
{"text":"ask","line":"box","proto":[0,255],"src":["10.0.1.10","10.0.1.11"],"dst":["0.0.0.0","255.255.255.255"],"p":[0,65535],"q":[443,444]}
cut src 10.0.1.11
{"text":"ask","line":"cut","side":"src","at":"10.0.1.11"}
cut proto 255
{"text":"ask","line":"cut","side":"proto","at":255}
leaf request TgwBlackhole tgw-rtb-a 10.2.9.0/24
{"text":"ask","line":"leaf","phase":"request","name":"TgwBlackhole","id":"tgw-rtb-a","rule":"10.2.9.0/24"}
cut dst 128.0.0.0
{"text":"ask","line":"cut","side":"dst","at":"128.0.0.0"}
leaf reply NoReply internet -
{"text":"ask","line":"leaf","phase":"reply","name":"NoReply","id":"internet","rule":null}
cut q 444
{"text":"ask","line":"cut","side":"q","at":444}
leaf request BlockPublicAccess subnet-0a block-ingress
{"text":"ask","line":"leaf","phase":"request","name":"BlockPublicAccess","id":"subnet-0a","rule":"block-ingress"}
leaf reply NoReply internet -
{"text":"ask","line":"leaf","phase":"reply","name":"NoReply","id":"internet","rule":null}
cut p 1
{"text":"ask","line":"cut","side":"p","at":1}
leaf reply NoReply internet -
{"text":"ask","line":"leaf","phase":"reply","name":"NoReply","id":"internet","rule":null}
leaf request SourceCheck eni-a -
{"text":"ask","line":"leaf","phase":"request","name":"SourceCheck","id":"eni-a","rule":null}
end 6
{"text":"ask","line":"end","n":6}

vpc-report 2
{"text":"ask","line":"vpc-report","version":2}
query from eni-a to eni-b
{"text":"ask","line":"query","from":"eni-a","to":"eni-b"}
box 6-6 10.0.1.10-10.0.1.10 10.0.2.20-10.0.2.20 0-65535 80-80
{"text":"ask","line":"box","proto":[6,6],"src":["10.0.1.10","10.0.1.10"],"dst":["10.0.2.20","10.0.2.20"],"p":[0,65535],"q":[80,80]}
leaf request GroupsIn eni-b -
{"text":"ask","line":"leaf","phase":"request","name":"GroupsIn","id":"eni-b","rule":null}
end 1
{"text":"ask","line":"end","n":1}

more boxes
{"text":"ask","line":"more boxes"}
query from internet to eni-b
{"text":"ask","line":"query","from":"internet","to":"eni-b"}
box 1-1 10.0.1.10-10.0.1.10 10.0.2.20-10.0.2.20 5000-5000 0-65535
{"text":"ask","line":"box","proto":[1,1],"src":["10.0.1.10","10.0.1.10"],"dst":["10.0.2.20","10.0.2.20"],"p":[5000,5000],"q":[0,65535]}
row 1 request GroupsIn eni-b - 1-1 10.0.1.10-10.0.1.10 10.0.2.20-10.0.2.20 5000-5000 0-21
{"text":"ask","line":"row","n":1,"phase":"request","name":"GroupsIn","id":"eni-b","rule":null,"proto":[1,1],"src":["10.0.1.10","10.0.1.10"],"dst":["10.0.2.20","10.0.2.20"],"p":[5000,5000],"q":[0,21]}
next icmp 10.0.1.10 10.0.2.20 5000 22
{"text":"ask","line":"next","proto":"icmp","src":"10.0.1.10","dst":"10.0.2.20","p":5000,"q":22}
cells 340282366920938463463374607431768211455
{"text":"ask","line":"cells","cells":"340282366920938463463374607431768211455"}

yes
{"text":"check","line":"yes"}

no overlap 1 20000
{"text":"check","line":"no","why":"overlap","i":1,"j":20000}

no uncovered tcp 10.0.1.10 10.0.2.20 1024 443
{"text":"check","line":"no","why":"uncovered","proto":"tcp","src":"10.0.1.10","dst":"10.0.2.20","p":1024,"q":443}

no untrue 2 tcp 10.0.1.10 10.0.2.20 1024 443 reply AclOut acl-b 32767
{"text":"check","line":"no","why":"untrue","i":2,"proto":"tcp","src":"10.0.1.10","dst":"10.0.2.20","p":1024,"q":443,"phase":"reply","name":"AclOut","id":"acl-b","rule":"32767"}

no untrue 1 tcp 10.0.1.10 10.0.1.20 0 80 through
{"text":"check","line":"no","why":"untrue","i":1,"proto":"tcp","src":"10.0.1.10","dst":"10.0.1.20","p":0,"q":80,"word":"through"}

no untrue 1 tcp 10.0.1.10 10.0.2.20 0 81 same
{"text":"check","line":"no","why":"untrue","i":1,"proto":"tcp","src":"10.0.1.10","dst":"10.0.2.20","p":0,"q":81,"word":"same"}

no unlisted internet tcp 198.51.100.7 203.0.113.10 0 22 opened eni-a request WrongPlace internet -
{"text":"check","line":"no","why":"unlisted","start":"internet","proto":"tcp","src":"198.51.100.7","dst":"203.0.113.10","p":0,"q":22,"word":"opened","end":"eni-a","phase":"request","name":"WrongPlace","id":"internet","rule":null}

no unlisted eni-a tcp 10.0.1.10 10.0.2.20 0 443 moved eni-b eni-b2
{"text":"check","line":"no","why":"unlisted","start":"eni-a","proto":"tcp","src":"10.0.1.10","dst":"10.0.2.20","p":0,"q":443,"word":"moved","end":"eni-b","after":"eni-b2"}

no unlisted eni-a tcp 10.0.1.10 10.0.2.20 0 443 reached eni-b
{"text":"check","line":"no","why":"unlisted","start":"eni-a","proto":"tcp","src":"10.0.1.10","dst":"10.0.2.20","p":0,"q":443,"word":"reached","end":"eni-b"}

no untrue 3 tcp 10.0.1.10 10.0.2.20 0 443 eni-c
{"text":"check","line":"no","why":"untrue","i":3,"proto":"tcp","src":"10.0.1.10","dst":"10.0.2.20","p":0,"q":443,"end":"eni-c"}

event 1 arrived internet tcp 203.0.113.5 198.51.100.7 5000 443
{"text":"replay","line":"event","n":1,"outcome":"arrived","id":"internet","proto":"tcp","src":"203.0.113.5","dst":"198.51.100.7","p":5000,"q":443}
event 2 stopped NatUnsolicited nat-1 -
{"text":"replay","line":"event","n":2,"outcome":"stopped","name":"NatUnsolicited","id":"nat-1","rule":null}

make 2
{"text":"make","line":"make","n":2}
pair eni-1 eni-2 reachable tcp 10.1.1.10 10.2.1.10 0 2
{"text":"make","line":"pair","from":"eni-1","to":"eni-2","answer":"reachable","proto":"tcp","src":"10.1.1.10","dst":"10.2.1.10","p":0,"q":2}
pair eni-1 internet blocked
{"text":"make","line":"pair","from":"eni-1","to":"internet","answer":"blocked"}

matrix
{"text":"matrix","line":"matrix"}
pair eni-a eni-b open 443-443 5000-5010 65535-65535
{"text":"matrix","line":"pair","from":"eni-a","to":"eni-b","answer":"open","ports":[[443,443],[5000,5010],[65535,65535]]}
pair eni-a eni-c no-address
{"text":"matrix","line":"pair","from":"eni-a","to":"eni-c","answer":"no-address"}
pair eni-b eni-a blocked
{"text":"matrix","line":"pair","from":"eni-b","to":"eni-a","answer":"blocked"}
pair eni-b eni-c no-address
{"text":"matrix","line":"pair","from":"eni-b","to":"eni-c","answer":"no-address"}
pair eni-c eni-a no-address
{"text":"matrix","line":"pair","from":"eni-c","to":"eni-a","answer":"no-address"}
pair eni-c eni-b no-address
{"text":"matrix","line":"pair","from":"eni-c","to":"eni-b","answer":"no-address"}

matrix
{"text":"matrix","line":"matrix"}

vpc-reach 1
{"text":"reach","line":"vpc-reach","version":1}
query from eni-a to internet proto 6 src 10.0.0.0/8 dst 0.0.0.0/0 sport 1024-65535 port 443-443
{"text":"reach","line":"query","from":"eni-a","to":"internet","proto":"6","src":"10.0.0.0/8","dst":"0.0.0.0/0","sport":[1024,65535],"port":[443,443]}
row 1 eni-a internet 6-6 10.0.1.10-10.0.1.10 1.0.0.0-9.255.255.255 1024-65535 443-443
{"text":"reach","line":"row","n":1,"start":"eni-a","end":"internet","proto":[6,6],"src":["10.0.1.10","10.0.1.10"],"dst":["1.0.0.0","9.255.255.255"],"p":[1024,65535],"q":[443,443]}
end 1
{"text":"reach","line":"end","n":1}

vpc-reach 1
{"text":"reach","line":"vpc-reach","version":1}
query
{"text":"reach","line":"query"}
end 0
{"text":"reach","line":"end","n":0}

more reach
{"text":"reach","line":"more reach"}
query proto tcp
{"text":"reach","line":"query","proto":"tcp"}
row 1 internet eni-a 0-255 198.51.100.0-198.51.100.255 203.0.113.10-203.0.113.10 0-65535 0-65535
{"text":"reach","line":"row","n":1,"start":"internet","end":"eni-a","proto":[0,255],"src":["198.51.100.0","198.51.100.255"],"dst":["203.0.113.10","203.0.113.10"],"p":[0,65535],"q":[0,65535]}
next eni-a 0 10.0.1.10 10.0.2.20 0 0
{"text":"reach","line":"next","start":"eni-a","proto":0,"src":"10.0.1.10","dst":"10.0.2.20","p":0,"q":0}

vpc-diff 1
{"text":"diff","line":"vpc-diff","version":1}
query to eni-b
{"text":"diff","line":"query","to":"eni-b"}
row 1 eni-a opened eni-b request GroupsIn eni-b - 6-6 10.0.1.10-10.0.1.10 10.0.2.20-10.0.2.20 0-65535 80-80
{"text":"diff","line":"row","n":1,"start":"eni-a","word":"opened","end":"eni-b","phase":"request","name":"GroupsIn","id":"eni-b","rule":null,"proto":[6,6],"src":["10.0.1.10","10.0.1.10"],"dst":["10.0.2.20","10.0.2.20"],"p":[0,65535],"q":[80,80]}
row 2 eni-a closed eni-b reply AclOut acl-b 32767 6-6 10.0.1.10-10.0.1.10 10.0.2.20-10.0.2.20 0-32767 443-443
{"text":"diff","line":"row","n":2,"start":"eni-a","word":"closed","end":"eni-b","phase":"reply","name":"AclOut","id":"acl-b","rule":"32767","proto":[6,6],"src":["10.0.1.10","10.0.1.10"],"dst":["10.0.2.20","10.0.2.20"],"p":[0,32767],"q":[443,443]}
row 3 eni-c moved eni-b eni-b2 6-6 10.0.1.11-10.0.1.11 10.0.2.20-10.0.2.20 0-65535 443-443
{"text":"diff","line":"row","n":3,"start":"eni-c","word":"moved","end":"eni-b","after":"eni-b2","proto":[6,6],"src":["10.0.1.11","10.0.1.11"],"dst":["10.0.2.20","10.0.2.20"],"p":[0,65535],"q":[443,443]}
row 4 eni-d opened eni-b request Absent eni-d - 6-6 10.0.1.12-10.0.1.12 10.0.2.20-10.0.2.20 0-65535 443-443
{"text":"diff","line":"row","n":4,"start":"eni-d","word":"opened","end":"eni-b","phase":"request","name":"Absent","id":"eni-d","rule":null,"proto":[6,6],"src":["10.0.1.12","10.0.1.12"],"dst":["10.0.2.20","10.0.2.20"],"p":[0,65535],"q":[443,443]}
end 4
{"text":"diff","line":"end","n":4}

more changes
{"text":"diff","line":"more changes"}
query
{"text":"diff","line":"query"}
row 1 eni-c moved eni-b eni-b2 6-6 10.0.1.11-10.0.1.11 10.0.2.20-10.0.2.20 0-65535 443-443
{"text":"diff","line":"row","n":1,"start":"eni-c","word":"moved","end":"eni-b","after":"eni-b2","proto":[6,6],"src":["10.0.1.11","10.0.1.11"],"dst":["10.0.2.20","10.0.2.20"],"p":[0,65535],"q":[443,443]}
next eni-d tcp 10.0.1.12 10.0.2.20 0 443
{"text":"diff","line":"next","start":"eni-d","proto":"tcp","src":"10.0.1.12","dst":"10.0.2.20","p":0,"q":443}

line 1 blocked
{"text":"expect","line":"line","n":1,"answer":"blocked"}
line 4 reachable tcp 10.0.1.10 10.0.2.20 0 443
{"text":"expect","line":"line","n":4,"answer":"reachable","proto":"tcp","src":"10.0.1.10","dst":"10.0.2.20","p":0,"q":443}
line 5 request GroupsIn eni-b - tcp 10.0.1.10 10.0.2.20 0 80
{"text":"expect","line":"line","n":5,"answer":"stopped","phase":"request","name":"GroupsIn","id":"eni-b","rule":null,"proto":"tcp","src":"10.0.1.10","dst":"10.0.2.20","p":0,"q":80}
line 6 unknown request Unmodelled vpce-s3 - tcp 10.0.1.10 52.216.0.0 0 443
{"text":"expect","line":"line","n":6,"answer":"unknown","phase":"request","name":"Unmodelled","id":"vpce-s3","rule":null,"proto":"tcp","src":"10.0.1.10","dst":"52.216.0.0","p":0,"q":443}
ok 2 fail 3 unknown 1
{"text":"expect","line":"ok","ok":2,"fail":3,"unknown":1}

line 3 ACCEPT GroupsIn eni-b -
{"text":"flows","line":"line","n":3,"action":"ACCEPT","name":"GroupsIn","id":"eni-b","rule":null}
line 4 REJECT by sg-b in 1
{"text":"flows","line":"line","n":4,"action":"REJECT","by":"rule","group":"sg-b","direction":"in","rule":"1"}
line 9 REJECT by none
{"text":"flows","line":"line","n":9,"action":"REJECT","by":"none"}
ok 2 differ 3 nodata 1 skipdata 0 unknown 4 skipped 5
{"text":"flows","line":"ok","ok":2,"differ":3,"nodata":1,"skipdata":0,"unknown":4,"skipped":5}

rules 3
{"text":"unused","line":"rules","n":3}
rule sg-a out 1 needed tcp 10.0.1.10 10.0.2.20 0 0
{"text":"unused","line":"rule","id":"sg-a","direction":"out","rule":"1","answer":"needed","proto":"tcp","src":"10.0.1.10","dst":"10.0.2.20","p":0,"q":0}
rule sg-b in sgr-1 unused
{"text":"unused","line":"rule","id":"sg-b","direction":"in","rule":"sgr-1","answer":"unused"}
rule acl-1 in 100 unused
{"text":"unused","line":"rule","id":"acl-1","direction":"in","rule":"100","answer":"unused"}

refused words 11
{"text":"refusal","line":"refused","of":"words","n":11}

refused description TooBig
{"text":"refusal","line":"refused","of":"description","why":"TooBig"}

refused description after NotJson
{"text":"refusal","line":"refused","of":"description after","why":"NotJson"}

refused description WrongShape $
{"text":"refusal","line":"refused","of":"description","why":"WrongShape","path":"$"}

refused description BadText NetworkAcls[0].Entries[12].PortRange.From
{"text":"refusal","line":"refused","of":"description","why":"BadText","path":"NetworkAcls[0].Entries[12].PortRange.From"}

refused description DuplicateId vpc-1
{"text":"refusal","line":"refused","of":"description","why":"DuplicateId","id":"vpc-1"}

refused description MissingReference eni-a sg-x
{"text":"refusal","line":"refused","of":"description","why":"MissingReference","from":"eni-a","to":"sg-x"}

refused description DuplicateAddress vpc-1 10.0.1.10
{"text":"refusal","line":"refused","of":"description","why":"DuplicateAddress","vpc":"vpc-1","address":"10.0.1.10"}

refused description DuplicatePublic 203.0.113.5
{"text":"refusal","line":"refused","of":"description","why":"DuplicatePublic","address":"203.0.113.5"}

refused description NoRouteTable subnet-a
{"text":"refusal","line":"refused","of":"description","why":"NoRouteTable","subnet":"subnet-a"}

refused description NoAcl subnet-a
{"text":"refusal","line":"refused","of":"description","why":"NoAcl","subnet":"subnet-a"}

refused description TwoInternetGateways vpc-1
{"text":"refusal","line":"refused","of":"description","why":"TwoInternetGateways","vpc":"vpc-1"}

refused description TwoTables subnet-a
{"text":"refusal","line":"refused","of":"description","why":"TwoTables","id":"subnet-a"}

refused description TwoAcls subnet-a
{"text":"refusal","line":"refused","of":"description","why":"TwoAcls","subnet":"subnet-a"}

refused description after TooManyRows SecurityGroups
{"text":"refusal","line":"refused","of":"description after","why":"TooManyRows","list":"SecurityGroups"}

refused packet BadWord 10
{"text":"refusal","line":"refused","of":"packet","why":"BadWord","n":10}

refused packet UnknownId 5
{"text":"refusal","line":"refused","of":"packet","why":"UnknownId","n":5}

refused packet NotAnEnd eni-n
{"text":"refusal","line":"refused","of":"packet","why":"NotAnEnd","id":"eni-n"}

refused query BadWord 3
{"text":"refusal","line":"refused","of":"query","why":"BadWord","n":3}

refused query BothInternet
{"text":"refusal","line":"refused","of":"query","why":"BothInternet"}

refused query NotAStart 4
{"text":"refusal","line":"refused","of":"query","why":"NotAStart","n":4}

refused query NotAnEnd att-b
{"text":"refusal","line":"refused","of":"query","why":"NotAnEnd","id":"att-b"}

refused description TooManyRows VpcEndpoints
{"text":"refusal","line":"refused","of":"description","why":"TooManyRows","list":"VpcEndpoints"}

refused query EmptyRange 8
{"text":"refusal","line":"refused","of":"query","why":"EmptyRange","n":8}

refused query MaxOutOfRange
{"text":"refusal","line":"refused","of":"query","why":"MaxOutOfRange"}

refused query NoAddress eni-a
{"text":"refusal","line":"refused","of":"query","why":"NoAddress","id":"eni-a"}

refused events 3
{"text":"refusal","line":"refused","of":"events","n":3}

refused report TooManyBoxes 20004
{"text":"refusal","line":"refused","of":"report","why":"TooManyBoxes","n":20004}

refused report TooBig
{"text":"refusal","line":"refused","of":"report","why":"TooBig"}

refused number 2
{"text":"refusal","line":"refused","of":"number","n":2}

refused matrix TooManyInterfaces
{"text":"refusal","line":"refused","of":"matrix","why":"TooManyInterfaces"}

refused unused TooManyRules
{"text":"refusal","line":"refused","of":"unused","why":"TooManyRules"}

read fault 2
{"text":"refusal","line":"read fault","n":2}

want of memory
{"text":"refusal","line":"want of memory"}
"""

# Texts as they are. An empty line ends one.
WORKED = """
hop 1 out eni-a tcp 10.0.1.10 198.51.100.7 0 443 by sg-a out 1
hop 2 router subnet-a tcp 10.0.1.10 198.51.100.7 0 443
hop 3 nat-out nat-1 tcp 10.0.1.10 198.51.100.7 0 443
hop 4 router subnet-n tcp 10.0.3.5 198.51.100.7 1024 443
hop 5 igw-out igw-1 tcp 10.0.3.5 198.51.100.7 1024 443
hop 6 internet internet tcp 203.0.113.5 198.51.100.7 1024 443
arrived internet

hop 1 out eni-a tcp 10.1.1.10 172.20.0.1 1 2 by sg-a out 1
hop 2 router subnet-a tcp 10.1.1.10 172.20.0.1 1 2
hop 3 tgw att-a tcp 10.1.1.10 172.20.0.1 1 2
hop 4 tgw-leave att-b tcp 10.1.1.10 172.20.0.1 1 2
hop 5 router subnet-tb tcp 10.1.1.10 172.20.0.1 1 2
hop 6 tgw att-b tcp 10.1.1.10 172.20.0.1 1 2
hop 7 tgw-leave att-a tcp 10.1.1.10 172.20.0.1 1 2
hop 8 router subnet-ta tcp 10.1.1.10 172.20.0.1 1 2
stopped Loop att-a -

reachable
packet tcp 172.20.0.0 10.0.2.20 0 22
request
hop 1 far-in vgw-1 tcp 172.20.0.0 10.0.2.20 0 22
hop 2 enter vpc-1 tcp 172.20.0.0 10.0.2.20 0 22
hop 3 in eni-b tcp 172.20.0.0 10.0.2.20 0 22 by sg-b in 2
arrived eni-b
reply
hop 1 out eni-b tcp 10.0.2.20 172.20.0.0 22 0 by tracked
hop 2 router subnet-b tcp 10.0.2.20 172.20.0.0 22 0
hop 3 far-out vgw-1 tcp 10.0.2.20 172.20.0.0 22 0
arrived vgw-1

hop 1 far-in att-vpn tcp 172.20.0.1 10.2.1.10 1 2
route tgw-rtb-a 10.2.0.0/16 att-b
hop 2 tgw-leave att-b tcp 172.20.0.1 10.2.1.10 1 2
hop 3 router subnet-tb tcp 172.20.0.1 10.2.1.10 1 2
stopped NoRoute rtb-b -

vpc-reach 1
query from vgw-1 to eni-b port 22-22
row 1 vgw-1 eni-b 6-6 172.20.0.0-172.20.255.255 10.0.2.20-10.0.2.20 0-65535 22-22
end 1

hop 1 out eni-a tcp 10.1.1.10 10.3.1.10 5000 443 by sg-a out 1
hop 2 router subnet-a tcp 10.1.1.10 10.3.1.10 5000 443
hop 3 peer pcx-ab tcp 10.1.1.10 10.3.1.10 5000 443
stopped PeerDestination pcx-ab -

reachable
packet tcp 10.0.1.10 10.0.2.20 0 443
request
hop 1 out eni-a tcp 10.0.1.10 10.0.2.20 0 443 by sg-a out 1
hop 2 router subnet-a tcp 10.0.1.10 10.0.2.20 0 443
hop 3 in eni-b tcp 10.0.1.10 10.0.2.20 0 443 by sg-b in 1
arrived eni-b
reply
hop 1 out eni-b tcp 10.0.2.20 10.0.1.10 443 0 by tracked
hop 2 router subnet-b tcp 10.0.2.20 10.0.1.10 443 0
hop 3 in eni-a tcp 10.0.2.20 10.0.1.10 443 0 by tracked
arrived eni-a

reachable
packet tcp 10.0.1.10 198.51.100.7 0 443
request
hop 1 out eni-a tcp 10.0.1.10 198.51.100.7 0 443 by sg-a out 1
hop 2 router subnet-a tcp 10.0.1.10 198.51.100.7 0 443
hop 3 nat-out nat-1 tcp 10.0.1.10 198.51.100.7 0 443
hop 4 router subnet-n tcp 10.0.3.5 198.51.100.7 1024 443
hop 5 igw-out igw-1 tcp 10.0.3.5 198.51.100.7 1024 443
hop 6 internet internet tcp 203.0.113.5 198.51.100.7 1024 443
arrived internet
reply
hop 1 internet internet tcp 198.51.100.7 203.0.113.5 443 1024
hop 2 igw-in igw-1 tcp 198.51.100.7 203.0.113.5 443 1024
hop 3 enter vpc-1 tcp 198.51.100.7 10.0.3.5 443 1024
hop 4 nat-in nat-1 tcp 198.51.100.7 10.0.3.5 443 1024
hop 5 router subnet-n tcp 198.51.100.7 10.0.1.10 443 0
hop 6 in eni-a tcp 198.51.100.7 10.0.1.10 443 0 by tracked
arrived eni-a

vpc-report 1
query from eni-a to eni-b
box 6-6 10.0.1.10-10.0.1.10 10.0.2.20-10.0.2.20 0-65535 80-80
row 1 request GroupsIn eni-b - 6-6 10.0.1.10-10.0.1.10 10.0.2.20-10.0.2.20 0-65535 80-80
end 1

vpc-report 1
query from eni-a to eni-b
box 6-6 10.0.1.10-10.0.1.10 10.0.2.20-10.0.2.20 0-32767 443-443
row 1 reply AclOut acl-b 32767 6-6 10.0.1.10-10.0.1.10 10.0.2.20-10.0.2.20 0-1023 443-443
row 2 reply AclOut acl-b 32767 6-6 10.0.1.10-10.0.1.10 10.0.2.20-10.0.2.20 1024-32767 443-443
end 2

more boxes
query from eni-a to eni-b
box 6-6 10.0.1.10-10.0.1.10 10.0.2.20-10.0.2.20 5000-5000 0-65535
row 1 request GroupsIn eni-b - 6-6 10.0.1.10-10.0.1.10 10.0.2.20-10.0.2.20 5000-5000 0-21
row 2 request AclIn acl-1 80 6-6 10.0.1.10-10.0.1.10 10.0.2.20-10.0.2.20 5000-5000 22-22
row 3 request GroupsIn eni-b - 6-6 10.0.1.10-10.0.1.10 10.0.2.20-10.0.2.20 5000-5000 23-442
next tcp 10.0.1.10 10.0.2.20 5000 443
cells 7

event 1 arrived internet tcp 203.0.113.5 198.51.100.7 5000 443
event 2 arrived internet tcp 203.0.113.5 198.51.100.7 5001 443
event 3 arrived eni-b tcp 198.51.100.7 10.0.2.20 443 5000
event 4 arrived eni-a tcp 198.51.100.7 10.0.1.10 443 5000
event 5 stopped NatUnsolicited nat-1 -

make 3
pair eni-1 eni-2 reachable tcp 10.1.1.10 10.2.1.10 0 2
pair eni-1 eni-3 reachable tcp 10.1.1.10 10.3.1.10 0 3
pair eni-1 internet blocked

matrix
pair eni-a eni-b open 0-65535
pair eni-a eni-b9 blocked
pair eni-b eni-a open 0-65535
pair eni-b eni-b9 open 0-65535
pair eni-b9 eni-a blocked
pair eni-b9 eni-b open 0-65535

matrix
pair eni-a eni-b open 443-443
pair eni-b eni-a blocked

vpc-reach 1
query to eni-b9
row 1 eni-b eni-b9 0-0 10.2.1.10-10.2.1.10 10.2.9.10-10.2.9.10 0-65535 0-65535
row 2 eni-b eni-b9 1-1 10.2.1.10-10.2.1.10 10.2.9.10-10.2.9.10 0-65535 2048-2048
row 3 eni-b eni-b9 2-255 10.2.1.10-10.2.1.10 10.2.9.10-10.2.9.10 0-65535 0-65535
end 3

vpc-diff 1
query from eni-a
row 1 eni-a opened eni-b request GroupsIn eni-b - 6-6 10.0.1.10-10.0.1.10 10.0.2.20-10.0.2.20 0-65535 80-80
end 1

vpc-diff 1
query
end 0

ok 0 fail 0 unknown 0

ok 0 differ 0 nodata 0 skipdata 0 unknown 0 skipped 0

line 3 ACCEPT GroupsIn eni-b -
line 4 REJECT by sg-b in 1
ok 2 differ 2 nodata 1 skipdata 0 unknown 0 skipped 0

rules 4
rule sg-a out 1 needed tcp 10.0.1.10 10.0.2.20 0 0
rule sg-b in 1 needed tcp 10.0.1.10 10.0.2.20 0 443
rule acl-1 in 100 needed tcp 10.0.1.10 10.0.2.20 0 0
rule acl-1 out 100 needed tcp 10.0.1.10 10.0.2.20 0 0

rules 5
rule sg-a out 1 needed tcp 10.0.1.10 10.0.2.20 0 0
rule sg-b in 1 unused
rule sg-b in 2 unused
rule acl-1 in 100 needed tcp 10.0.1.10 10.0.2.20 0 0
rule acl-1 out 100 needed tcp 10.0.1.10 10.0.2.20 0 0

rules 0

hop 1 internet internet tcp 198.51.100.7 203.0.113.80 5000 443
hop 2 igw-in igw-1 tcp 198.51.100.7 203.0.113.80 5000 443
becomes tcp 198.51.100.7 10.0.1.10 5000 443
hop 3 enter vpc-1 tcp 198.51.100.7 10.0.1.10 5000 443
acl acl-1 in 100 allow
hop 4 in eni-a tcp 198.51.100.7 10.0.1.10 5000 443 by none
hop 5 out eni-a tcp 198.51.100.7 10.0.1.10 5000 443 by none
hop 6 router subnet-a tcp 198.51.100.7 10.0.1.10 5000 443
route rtb-a 10.0.0.0/8 tgw-1
acl acl-1 out 100 allow
acl acl-1 in 100 allow
hop 7 tgw att-a tcp 198.51.100.7 10.0.1.10 5000 443
route tgw-rtb-a 10.0.0.0/8 -
stopped Unmodelled tgw-rtb-a -

hop 1 out eni-a tcp 10.0.1.10 10.9.0.1 1 2 by none
hop 2 router subnet-a tcp 10.0.1.10 10.9.0.1 1 2
route rtb-a 10.9.0.0/16 pcx-9
stopped Blackhole rtb-a 10.9.0.0/16

hop 1 out eni-a tcp 10.0.1.10 10.9.0.1 1 2 by none
hop 2 router subnet-a tcp 10.0.1.10 10.9.0.1 1 2
route rtb-a 10.9.0.0/16 igw-1
acl acl-1 out 7 allow
hop 3 igw-out igw-1 tcp 10.0.1.10 10.9.0.1 1 2
stopped NoPublic igw-1 -
"""

# The stops, each with a component and a rule as it has them.
STOPS = """
Detached eni-a -
SourceCheck eni-a -
DestCheck eni-a -
GroupsOut eni-a -
GroupsIn eni-a -
NotAHost eni-n -
ApplianceDrop eni-f -
NoRoute rtb-1 -
Blackhole rtb-1 10.0.2.0/24
Blackhole rtb-1 pl-s3
AclOut acl-b 32767
AclIn acl-1 90
NoHost vpc-1 -
NoGateway vpc-1 -
GatewayDetached igw-2 -
NoPublic igw-1 -
BlockPublicAccess subnet-0a block-bidirectional
PrivateAddress internet -
NatNotAvailable nat-1 -
NatAnswer nat-1 -
NatProtocol nat-1 -
NatFull nat-1 -
NatUnsolicited nat-1 -
PeerNotActive pcx-ab -
PeerSource pcx-ab -
PeerDestination pcx-ab -
TgwNoAttachment tgw-1 -
TgwNoZone att-a -
TgwNoTable att-a -
TgwNoRoute tgw-rtb-a -
TgwBlackhole tgw-rtb-a 10.2.9.0/24
FarDetached vgw-1 -
FarNoTable att-vpn -
FarSource vpce-s3 -
FarOpens vpce-s3 -
InspectDrop vpce-fw -
Unmodelled vpce-s3 -
Loop att-a -
TooFar subnet-64 -
WrongPlace internet -
WrongReturn eni-a -
NoReply eni-b -
"""
HOP = "hop 1 out eni-a tcp 10.0.1.10 10.0.2.20 1 2 by sg-a out 1\n"
BOX = "6-6 10.0.1.10-10.0.1.10 10.0.2.20-10.0.2.20 0-65535 80-80"
REACHABLE = """reachable
packet udp 10.0.1.10 10.0.1.20 53 54
request
hop 1 out eni-a udp 10.0.1.10 10.0.1.20 53 54 by none
hop 2 in eni-b udp 10.0.1.10 10.0.1.20 53 54 by none
arrived eni-b
reply
hop 1 out eni-b udp 10.0.1.20 10.0.1.10 54 53 by tracked
hop 2 in eni-a udp 10.0.1.20 10.0.1.10 54 53 by tracked
arrived eni-a
"""
WHY = f"""{HOP}group sg-a out 1
hop 2 router subnet-a tcp 10.0.1.10 10.0.2.20 1 2
route rtb-a 0.0.0.0/0 nat-1
acl acl-1 out 100 allow
acl acl-2 in 90 allow
hop 3 nat-out nat-1 tcp 10.0.1.10 10.0.2.20 1 2
becomes tcp 10.0.3.5 10.0.2.20 1025 2
hop 4 router subnet-n tcp 10.0.3.5 10.0.2.20 1025 2
route rtb-n 10.0.0.0/16 local
acl acl-2 out 80 deny
stopped AclOut acl-2 80
"""
FAR = """hop 1 far-in att-vpn tcp 172.20.0.1 172.30.0.1 5 443
hop 2 far-out att-dx tcp 172.20.0.1 172.30.0.1 5 443
arrived att-dx
"""
REPORT = f"vpc-report 1\nquery from eni-a to eni-b\nbox {BOX}\n"
TREE, LEAF = REPORT.replace("1", "2", 1), "leaf request GroupsIn eni-b -\n"

# What is no text, or only looks like one.
NONE = [
    # of no command
    "\n", " ", "hop", "yes", "Yes\n", " yes\n", "yes \n", "yes\r\n", "yes\nyes\n", "yes\n\n", "\nyes\n", "no\n", "open\n", "status 0\n", "\ufeffyes\n", "y\u00e9s\n",
    "no overlap 1\n", "no overlap 01 2\n", "no overlap 1 99999999999999999\n", "no untrue 1 tcp 10.0.1.10 10.0.2.20 0 80\n",
    "no untrue 1 6 10.0.1.10 10.0.2.20 0 80 through\n", "no uncovered tcp 10.0.1.010 10.0.2.20 0 80\n", "no uncovered tcp 10.0.1.256 10.0.2.20 0 80\n",
    "no uncovered tcp 10.0.1.10 10.0.2.20 0 65536\n", "no uncovered 256 10.0.1.10 10.0.2.20 0 0\n", "no uncovered 05 10.0.1.10 10.0.2.20 0 0\n",
    "no uncovered tcp 10.0.1.05 10.0.2.20 0 80\n", "no uncovered tcp 10.0.1.10 10.0.2.20 00 80\n", "no uncovered tcp 10.0.1.10 10.0.2.20 0 080\n",
    # walks
    "arrived eni-a\n", HOP, HOP + "arrived eni-b\n", HOP + "stopped Nowhere eni-a -\n", HOP + "stopped GroupsIn eni-a\n",
    HOP.replace("1", "2", 1) + "stopped NoRoute rtb-1 -\n", HOP + HOP + "stopped NoRoute rtb-1 -\n", HOP.replace("by sg-a out 1", "by sg-a up 1") + "stopped NoRoute rtb-1 -\n",
    HOP.replace(" out ", " router ", 1) + "stopped NoRoute rtb-1 -\n", HOP.replace(" by sg-a out 1", "") + HOP.replace("1", "2", 1) + "stopped NoRoute rtb-1 -\n",
    HOP.replace("eni-a", "e" * 257) + "stopped NoRoute rtb-1 -\n", HOP.replace("out eni-a", "internet eni-a").replace(" by sg-a out 1", "") + "stopped PrivateAddress internet -\n",
    HOP + "".join(f"hop {n} router subnet-{n} tcp 10.0.1.10 10.0.2.20 1 2\n" for n in range(2, 66)) + "stopped TooFar subnet-66 -\n",
    REACHABLE.replace("54\nrequest", "55\nrequest"), REACHABLE.replace("54 53 by", "53 54 by"), REACHABLE.replace("54 53 by", "53 54 by", 1), REACHABLE.replace("10 54 53 by tracked\narr", "11 54 53 by tracked\narr"),
    REACHABLE.replace("udp", "icmp"), REACHABLE.replace("arrived eni-a", "arrived eni-b"), REACHABLE.replace("eni-a udp 10.0.1.20", "eni-c udp 10.0.1.20").replace("arrived eni-a", "arrived eni-c"),
    REACHABLE.replace("out eni-b", "out eni-c"), REACHABLE.replace("arrived eni-b", "stopped GroupsIn eni-b -"), REACHABLE.replace("arrived eni-a", "stopped GroupsIn eni-a -"),
    REACHABLE.replace("reply\n", ""), REACHABLE.replace("request\n", ""), REACHABLE.replace("reply", "request"), REACHABLE[: REACHABLE.index("reply")], REACHABLE + "cells 7\n",
    HOP.replace(" out ", " router ", 1).replace(" by sg-a out 1", "") + "stopped NoRoute rtb-1 -\n", HOP + HOP.replace("hop 1 out", "hop 2 in") + "arrived eni-b\n",
    # walks with what decided
    HOP + "group sg-a out 2\nstopped NoRoute rtb-1 -\n", HOP + "group sg-a out 1\ngroup sg-a out 1\nstopped NoRoute rtb-1 -\n", HOP + "route rtb-a 10.0.0.0/8 local\nstopped NoRoute rtb-1 -\n",
    "group sg-a out 1\n" + HOP + "stopped NoRoute rtb-1 -\n", WHY.replace("group sg-a out 1\n", ""), WHY.replace("route rtb-a", "route rtb-a 10.0.0.0/8"), WHY.replace("route rtb-a 0.0.0.0/0 nat-1\n", ""),
    WHY.replace("becomes tcp 10.0.3.5", "becomes tcp 10.0.3.6"), WHY.replace("becomes tcp 10.0.3.5 10.0.2.20 1025 2\n", ""), WHY.replace("acl acl-1 out 100 allow\n", "acl acl-1 out 100 allow\nacl acl-1 out 100 allow\n"),
    WHY.replace("100 allow", "100 deny"), WHY.replace("80 deny", "80 allow"), WHY.replace("out 80", "in 80"), WHY.replace("AclOut acl-2 80", "AclOut acl-2 81"), WHY.replace("AclOut acl-2 80", "NoHost vpc-1 -"),
    WHY.replace("acl acl-2 out 80 deny\n", ""), WHY.replace("out 80 deny", "out 080 deny"), WHY.replace("stopped AclOut acl-2 80\n", ""), WHY.replace("100 allow", "100 passes"), WHY.replace("acl-1 out 100", "acl-1 up 100"),
    WHY + "acl acl-2 out 80 deny\n", WHY.replace("hop 4 router subnet-n", "hop 4 enter vpc-1"), WHY.replace("becomes tcp 10.0.3.5 10.0.2.20 1025 2\n", "becomes tcp 10.0.3.5 10.0.2.20 1025 2\n" * 2),
    # networks outside
    FAR.replace("far-in", "far-out"), FAR.replace("far-out", "far-in"), FAR.replace("far-in", "inspect"), FAR.replace("arrived att-dx", "arrived att-vpn"), FAR.replace("hop 1 far-in att-vpn", "hop 1 far-in att-vpn by none"),
    FAR + "arrived att-dx\n", FAR.replace("hop 2", "acl acl-1 in 100 allow\nhop 2"), FAR.replace("hop 2", "route tgw-rtb-a 172.30.0.0/16 att-dx\nroute tgw-rtb-a 172.30.0.0/16 att-dx\nhop 2"),
    "hop 1 far-in vgw-1 tcp 172.20.0.1 10.0.1.10 1 2\nhop 2 enter vpc-1 tcp 172.20.0.1 10.0.1.10 1 2\nroute rtb-edge 10.0.0.0/16 local\nacl acl-1 out 90 deny\nstopped AclOut acl-1 90\n",
    "hop 1 far-in vgw-1 tcp 172.20.0.1 10.0.1.10 1 2\nhop 2 enter vpc-1 tcp 172.20.0.1 10.0.1.10 1 2\nacl acl-1 in 90 deny\nroute rtb-edge 10.0.0.0/16 local\nstopped AclIn acl-1 90\n",
    "refused packet NotAStart 5\n", "refused query NotAStart vpce-s3\n",
    # reports
    REPORT, REPORT + "end 1\n", REPORT + f"row 2 request GroupsIn eni-b - {BOX}\nend 1\n", REPORT + f"row 1 request GroupsIn eni-b - {BOX}\nend 2\n",
    REPORT + f"row 1 request GroupsIn eni-b - {BOX.replace('80-80', '80-81')}\nend 1\n", REPORT + f"row 1 request GroupsIn eni-b - {BOX.replace('80-80', '80-79')}\nend 1\n",
    REPORT + f"row 1 request GroupsIn eni-b - {BOX}\nend 1\nend 1\n", REPORT.replace("eni-a", "internet").replace("eni-b", "internet") + "end 0\n",
    REPORT.replace("10.0.1.10-10.0.1.10", "10.0.1.10-10.0.1.9") + "end 0\n", REPORT.replace("1", "2", 1) + "end 0\n", REPORT + "next tcp 10.0.1.10 10.0.2.20 0 80\ncells 7\n",
    REPORT.replace("vpc-report 1", "more boxes") + "next tcp 10.0.1.10 10.0.2.20 0 80\ncells 7\n",
    REPORT.replace("vpc-report 1", "more boxes") + f"row 1 request GroupsIn eni-b - {BOX}\nnext tcp 10.0.1.10 10.0.2.20 0 81\ncells 7\n",
    REPORT.replace("vpc-report 1", "more boxes") + f"row 1 request GroupsIn eni-b - {BOX}\nnext tcp 10.0.1.10 10.0.2.20 0 80\ncells 1\n",
    # trees
    TREE, TREE + LEAF, TREE + "end 0\n", TREE + LEAF + "end 2\n", TREE + LEAF + LEAF + "end 2\n", TREE + "cut p 1\n" + LEAF + "end 1\n", TREE + "cut p 1\n" + LEAF * 3 + "end 3\n", REPORT + LEAF + "end 1\n",
    TREE + "cut p 0\n" + LEAF * 2 + "end 2\n", TREE + "cut p 65536\n" + LEAF * 2 + "end 2\n", TREE + "cut p 00\n" + LEAF * 2 + "end 2\n", TREE + "cut q 80\n" + LEAF * 2 + "end 2\n", TREE + "cut q 81\n" + LEAF * 2 + "end 2\n",
    TREE + "cut sport 1\n" + LEAF * 2 + "end 2\n", TREE + "cut src 10.0.1.10\n" + LEAF * 2 + "end 2\n", TREE + "cut p 0.0.0.1\n" + LEAF * 2 + "end 2\n", TREE + "cut src 1\n" + LEAF * 2 + "end 2\n",
    TREE + "cut p 10\ncut p 10\n" + LEAF * 3 + "end 3\n", TREE + "cut p 10\n" + LEAF + "cut p 10\n" + LEAF * 2 + "end 3\n", TREE + "leaf request GroupsIn eni-b\nend 1\n", TREE + "leaf GroupsIn eni-b -\nend 1\n", TREE + "leaf request Absent eni-b -\nend 1\n",
    TREE + f"row 1 request GroupsIn eni-b - {BOX}\nend 1\n", TREE + LEAF + "end 1\nend 1\n", TREE.replace("vpc-report 2", "vpc-report 3") + LEAF + "end 1\n", TREE.replace("vpc-report 2", "vpc-reach 2") + LEAF + "end 1\n",
    TREE.replace("vpc-report 2", "more boxes") + LEAF + "next tcp 10.0.1.10 10.0.2.20 0 80\ncells 7\n",
    # the others
    "event 2 stopped NoRoute rtb-1 -\n", "event 1 stopped\n", "make 0\npair eni-1 internet blocked\n", "make 2\npair eni-1 internet blocked\n", "make 999999999999999\n",
    "make 51\n" + "".join(f"pair eni-1 eni-{k} blocked\n" for k in range(2, 52)) + "pair eni-1 internet blocked\n",
    "matrix\npair eni-a eni-b blocked\n", "matrix\npair eni-b eni-a blocked\npair eni-a eni-b blocked\n", "matrix\npair eni-a eni-a blocked\n",
    "matrix\npair eni-a eni-b open\npair eni-b eni-a blocked\n", "matrix\npair eni-a eni-b open 1-2 3-4\npair eni-b eni-a blocked\n",
    "matrix\npair eni-a eni-b open 5-6 1-2\npair eni-b eni-a blocked\n", "matrix\n" + "".join(f"pair eni-{k} eni-x{k} blocked\n" for k in range(20000)),
    "vpc-reach 1\nend 0\n", "vpc-reach 1\nquery to eni-b from eni-a\nend 0\n", "vpc-reach 1\nquery max 5\nend 0\n", "vpc-reach 1\nquery from\nend 0\n", "vpc-reach 1\nquery port 90-80\nend 0\n",
    "vpc-reach 1\nquery\nend 1\n", f"vpc-diff 1\nquery\nrow 1 eni-a moved eni-b eni-c {BOX}\nend 2\n", "vpc-diff 1\nquery\n",
    "more reach\nquery\nnext eni-a tcp 10.0.1.10 10.0.2.20 0 443\n", f"vpc-reach 1\nquery\nrow 1 eni-a opened eni-b request GroupsIn eni-b - {BOX}\nend 1\n",
    f"vpc-diff 1\nquery\nrow 1 eni-a eni-b {BOX}\nend 1\n", f"vpc-diff 1\nquery\nrow 1 eni-a closed eni-b reply Absent eni-a - {BOX}\nend 1\n",
    REPORT + f"row 1 request Absent eni-a - {BOX}\nend 1\n", f"more changes\nquery\nrow 1 eni-a moved eni-b eni-c {BOX}\nend 1\n", "more things\n",
    "line 1 blocked\nok 0 fail 2 unknown 0\n", "line 1 blocked\nok 0 fail 1\n", "line 1 blocked\nok 0 fail 1 unknown 1\n", "line 1 unknown\nok 0 fail 0 unknown 1\n", "line 2 blocked\nline 1 blocked\nok 0 fail 2 unknown 0\n", "line 1 blocked\nok 0 differ 1 nodata 0 skipdata 0 unknown 0 skipped 0\n",
    "line 1 REJECT by none\nok 0 fail 1 unknown 0\n", "line 1 REJECT by tracked\nok 0 differ 1 nodata 0 skipdata 0 unknown 0 skipped 0\n", "line 1 blocked\n",
    "rules 1\n", "rules 0\nrule sg-a in 1 unused\n", "rules 1\nrule sg-a up 1 unused\n", "rules 999999999999999\n",
    "refused\n", "refused words\n", "refused words -1\n", "refused words 1 2\n", "refused query\n", "refused query BadWord\n", "refused packet EmptyRange 4\n", "refused description\n", "refused description Odd\n",
    "refused description WrongShape Vpcs[0].\n", "refused description WrongShape Vpcs[x]\n", "refused description TooManyRows Things\n", "refused description DuplicateAddress vpc-1 10.0.1\n",
    "read fault\n", "want of time\n",
]

# What stands in the place of a member of an object, in turn.
VALUES = [None, True, False, 0, 1, 2, 1.0, 1.5, -1, 10**20, "", "-", "0", "1", "6", "x", "a b", "a\nb", "\u00e9", "%s", [], [1], [0, 5], [5, 0], [0.0, 5], [True, 5], ["0", "5"], ["10.0.0.0", "10.0.0.1"], [[0, 5]], {}, {"n": 1}]


def texts_of(table):
    return [it.strip("\n") + "\n" for it in table.strip("\n").split("\n\n")]


def told_texts():
    """The texts of TOLD, and of each the objects that its lines are to become."""
    found = []
    for it in texts_of(TOLD):
        lines = it.splitlines()
        found.append(("".join(line + "\n" for line in lines[::2]), [json.loads(line) for line in lines[1::2]]))
    return found


def row_texts():
    """The texts in crates/cli_rows/stdout, which stand between a command and its status."""
    found, text = [], None
    with open(os.path.join(TOP, "crates", "cli_rows", "stdout"), encoding="utf-8") as file:
        for line in file:
            if line.startswith("$ "):
                text = ""
            elif line.startswith("status ") and text is not None:
                found.append(text)
                text = None
            elif text is not None:
                text += line
    return found


def refusal_texts():
    with open(os.path.join(TOP, "tests", "bundles", "rows.json"), encoding="utf-8") as file:
        return [f"{line}\n" for _, _, line in json.load(file) if line != "accepted"]


def stop_texts():
    """Each stop in each text that has stops."""
    for it in STOPS.strip().splitlines():
        yield f"{HOP}stopped {it}\n"
        yield f"{REPORT}row 1 reply {it} {BOX}\nend 1\n"
        yield f"{TREE}leaf reply {it}\nend 1\n"
        yield f"no untrue 1 tcp 10.0.1.10 10.0.2.20 0 80 request {it}\n"
        yield f"event 1 stopped {it}\n"
        yield f"vpc-diff 1\nquery\nrow 1 eni-a closed eni-b reply {it} {BOX}\nend 1\n"
        yield f"line 7 request {it} tcp 10.0.1.10 10.0.2.20 0 80\nok 3 fail 1 unknown 0\n"
        yield f"line 7 ACCEPT {it}\nok 3 differ 1 nodata 0 skipdata 0 unknown 0 skipped 0\n"


def odd_texts():
    """Ids that look like other words, or have what JSON escapes, and the largest that there are."""
    for it in ("internet", "by", "none", "tracked", "to", "from", "through", "same", "open", "-", '"\\/', "%s", "e" * 256):
        yield f"hop 1 out {it} udp 10.0.1.10 10.0.2.20 0 65535 by {it} out {it}\nstopped NoRoute {it} {it}\n"
        yield f"vpc-reach 1\nquery from {it} to {it} port 1-1\nend 0\n" if it != "-" else "vpc-reach 1\nquery src 10.0.0.1/8\nend 0\n"
        yield f"no untrue 1 tcp 10.0.1.10 10.0.2.20 0 80 opened {it} request Loop {it} {it}\n"
        yield f"no unlisted {it} 255 0.0.0.0 255.255.255.255 0 0 moved {it} {it}\n"
        yield f"refused description MissingReference {it} {it}\n"
    yield ""
    yield REACHABLE
    yield "event 1 stopped NoRoute rtb-1 -\n" + "".join(f"event {n} arrived eni-a udp 0.0.0.0 1.2.3.4 0 0\n" for n in range(2, 200))


def answers(program):
    """What the program answers of the bundles in examples/."""

    def asked(*words):
        ran = subprocess.run([program, *words], capture_output=True, text=True, check=False)
        return ran.stdout

    yield from (asked(*it.split()) for it in ("", "make 7", "make 0", "fly", "trace", "ask x from a to b"))
    with tempfile.TemporaryDirectory() as room:
        for name in ("one-subnet", "shop", "three-tiers", "two-accounts", "hub"):
            path = os.path.join(TOP, "examples", f"{name}.json")
            with open(path, encoding="utf-8") as file:
                bundle = json.load(file)
            hosts = [row["NetworkInterfaceId"] for part in (bundle if isinstance(bundle, list) else [bundle]) for row in part["NetworkInterfaces"]][:5]
            for start, goal in itertools.permutations([*hosts, "internet"], 2):
                words = ["ask", path, "from", start, "to", goal]
                for more in ([], ["port", "443-443"], ["dst", "0.0.0.0/0", "max", "100000"], ["dst", "0.0.0.0/0", "max", "1"]):
                    text = asked(*words, *more)
                    yield text
                report, events = os.path.join(room, "report.txt"), os.path.join(room, "events.txt")
                with open(report, "w", encoding="utf-8") as file:
                    file.write(text)
                with open(events, "w", encoding="utf-8") as file:
                    file.write(f"open from {start} tcp 10.0.2.10 198.51.100.7 40000 443\nanswer from {goal} udp 198.51.100.7 203.0.113.5 443 40000\n")
                yield asked("check", path, report)
                yield asked("replay", path, events)
                yield asked("trace", path, "open", "from", start, "tcp", "10.0.2.10", "198.51.100.7", "40000", "443")


class Results:
    def __init__(self):
        self.passed = self.failed = 0

    def add(self, name, found, wanted=True):
        if found == wanted:
            self.passed += 1
            return
        self.failed += 1
        print(f"FAILED: {name}\n  wanted: {wanted}\n  found:  {found}")


def to_json(data):
    """The JSON lines of a text; None where it is refused."""
    try:
        return script.json_of(data)
    except script.NoText:
        return None


def to_text(data):
    try:
        return script.text_of(data)
    except script.NoText:
        return None


def objects_of(data):
    return [json.loads(it) for it in data.splitlines()]


def comes_back(data):
    """Whether a text becomes JSON lines, one a line, and the same bytes again."""
    found = to_json(data)
    return found is not None and found.isascii() and found.count(b"\n") == data.count(b"\n") and to_text(found) == data


def is_safe(data):
    """Whether a text is refused, or comes back."""
    return to_json(data) is None or comes_back(data)


def is_safe_back(data):
    """Whether JSON lines are refused, or give a text that tells the same."""
    found = to_text(data)
    if found is None:
        return True
    again = to_json(found)
    # (1 and 1.0, or 1 and true, are not the same)
    return again is not None and list(map(repr, map(sorted_items, objects_of(again)))) == list(map(repr, map(sorted_items, objects_of(data))))


def sorted_items(told):
    return sorted(told.items())


def moved_lines(lines):
    """Lines of which each is dropped, doubled, or exchanged with the next."""
    for at in range(len(lines)):
        yield lines[:at] + lines[at + 1 :]
        yield lines[: at + 1] + lines[at:]
        if at + 1 < len(lines):
            yield lines[:at] + [lines[at + 1], lines[at]] + lines[at + 2 :]


def damage_text(results, text, chance, step):
    """Damages a text in each of its lines and, in steps, its bytes."""
    data = text.encode()
    lines = data.splitlines(keepends=True)
    results.add(f"lines moved of {text!r}", [it for it in map(b"".join, moved_lines(lines)) if not is_safe(it)], [])
    # (cut inside a line it is no text, and else it may be a shorter one)
    cuts = [data[:at] for at in range(1, len(data), step)]
    results.add(f"{text!r} cut short", [it for it in cuts if not (is_safe(it) if it.endswith(b"\n") else to_json(it) is None)], [])
    wrong = []
    for at in range(0, len(data), step):
        other = chance.choice(b"0123456789- .abinto\n\r\t\0\xff\xc3")
        for it in (data[:at] + bytes([other]) + data[at + 1 :], data[:at] + bytes([other]) + data[at:], data[:at] + data[at + 1 :]):
            wrong += [] if is_safe(it) else [it]
    results.add(f"bytes changed of {text!r}", wrong, [])


def changed_objects(told, values):
    """An object with each of its members left out, named otherwise, or with one of these values, and with one more."""
    for name in told:
        yield {field: value for field, value in told.items() if field != name}
        yield {(f"{field}x" if field == name else field): value for field, value in told.items()}
        yield from ({**told, name: it} for it in values())
    yield {**told, "more": 1}
    yield {**told, "by": "tracked"}
    yield {**told, "phase": "reply"}


def damage_objects(results, text, chance, values):
    """Damages the JSON lines of a text, in each line and each member."""
    objects = objects_of(to_json(text.encode()))
    lines = [json.dumps(it).encode() + b"\n" for it in objects]
    results.add(f"JSON lines moved of {text!r}", [it for it in map(b"".join, moved_lines(lines)) if not is_safe_back(it)], [])
    wrong = []
    for at, told in enumerate(objects):
        for it in changed_objects(told, values):
            data = b"".join([*lines[:at], json.dumps(it).encode() + b"\n", *lines[at + 1 :]])
            wrong += [] if is_safe_back(data) else [data]
        place = chance.randrange(len(lines[at]))
        for other in (b"", b" ", b"1", b'"', b"}", b"\n", b"\xff"):
            data = b"".join([*lines[:at], lines[at][:place] + other + lines[at][place + 1 :], *lines[at + 1 :]])
            wrong += [] if is_safe_back(data) else [data]
    results.add(f"members changed of {text!r}", wrong, [])


def run_process(results):
    """As a process: words, what is no text, files that can't be read or written, and a reader that ends."""

    def ran(words, data=b"", **pipes):
        pipes.setdefault("stdout", subprocess.PIPE)
        it = subprocess.run([os.path.join(TOP, "lines"), *words], input=data, stderr=subprocess.PIPE, check=False, **pipes)
        return it.returncode, it.stdout, it.stderr.decode()

    hint = "lines: it reads standard input, and has no words but --back; --help says more\n"
    results.add("a text", ran([], b"yes\n"), (0, b'{"text":"check","line":"yes"}\n', ""))
    results.add("back", ran(["--back"], b'{"line": "yes", "text": "check"}\n'), (0, b"yes\n", ""))
    results.add("back, no last newline", ran(["--back"], b'{"line": "yes", "text": "check"}'), (0, b"yes\n", ""))
    for words in ([], ["--back"]):
        results.add(f"nothing, {words}", ran(words), (0, b"", ""))
    for words in (["answer.txt"], ["--front"], ["--back", "answer.txt"], ["--back", "--back"], [""]):
        results.add(f"words {words}", ran(words, b"yes\n"), (2, b"", hint))
    for words in (["--help"], ["-h"]):
        status, out, err = ran(words)
        results.add(f"words {words}", (status, out.splitlines()[0], err), (0, b"Texts of vpc as JSON lines, and back: lines < TEXT, lines --back < JSON-LINES", ""))
    no_text, no_lines = "lines: standard input is no text of vpc: ", "lines: standard input is no lines of vpc: "
    for name, words, data, why in (
        ("junk", [], bytes(range(256)) * 400, no_text + "its last line has no end"),
        ("junk with an end", [], bytes(range(256)) * 400 + b"\n", no_text + "no text begins as line 1 does"),
        ("another text", [], b"Hello\n", no_text + "no text begins as line 1 does"),
        ("cut short", [], HOP.encode(), no_text + "it breaks off"),
        ("a bad line", [], HOP.encode() + b"hop 2 nowhere\n", no_text + "line 2 is not what the text of trace has there"),
        ("a line too many", [], b"yes\nyes\n", no_text + "line 2 is not what the text of check has there"),
        ("JSON in the place of a text", [], b'{"text":"check","line":"yes"}\n', no_text + "no text begins as line 1 does"),
        ("a text in the place of JSON", ["--back"], b"yes\n", no_lines + "line 1 is not one JSON object (jq prints one a line with -c)"),
        ("JSON over several lines", ["--back"], b'{\n  "text": "check",\n  "line": "yes"\n}\n', no_lines + "line 1 is not one JSON object (jq prints one a line with -c)"),
        ("an array", ["--back"], b"[]\n", no_lines + "line 1 is not one JSON object (jq prints one a line with -c)"),
        ("nested deep", ["--back"], b"[" * 100_000 + b"\n", no_lines + "line 1 is not one JSON object (jq prints one a line with -c)"),
        ("a long number", ["--back"], b'{"n":' + b"1" * 5000 + b"}\n", no_lines + "line 1 is not one JSON object (jq prints one a line with -c)"),
        ("an empty line", ["--back"], b'{"text":"check","line":"yes"}\n\n', no_lines + "line 2 is not one JSON object (jq prints one a line with -c)"),
        ("no line", ["--back"], b'{"text":"check","line":"maybe"}\n', no_lines + "line 1 tells no line of a text"),
        ("no text", ["--back"], b'{"line":"yes"}\n', no_lines + "line 1 tells no line of a text"),
        ("a part of a text", ["--back"], b'{"text":"matrix","line":"pair","from":"a","to":"b","answer":"blocked"}\n', no_lines + "no text begins as line 1 does"),
        ("the wrong text", ["--back"], b'{"text":"make","line":"make","n":1}\n{"text":"matrix","line":"pair","from":"eni-1","to":"internet","answer":"blocked"}\n', no_lines + "line 2 tells otherwise what it has from the lines around it"),
    ):
        results.add(name, ran(words, data), (2, b"", why + "\n"))
    if os.path.exists("/dev/full"):
        with open("/dev/full", "wb") as full:
            results.add("a full disk", ran([], b"yes\n", stdout=full), (1, None, "lines: standard output can't be written: No space left on device\n"))
    script = f"'{sys.executable}' '{os.path.join(TOP, 'lines')}'"
    for name, command, wanted in (
        ("closed input", f"{script} <&-; echo $?", "2\n"),
        ("closed output", f"echo yes | {script} >&-; echo $?", "1\n"),
        ("a reader that ends", f"seq -f 'event %.0f stopped NoRoute rtb-1 -' 20000 | {script} | head -n 1; echo ${{PIPESTATUS[1]}}", '{"text":"replay","line":"event","n":1,"outcome":"stopped","name":"NoRoute","id":"rtb-1","rule":null}\n141\n'),
    ):
        it = subprocess.run(["bash", "-c", command], capture_output=True, text=True, check=False)
        results.add(name, (it.stdout, it.stderr.count("\n"), "Traceback" in it.stderr), (wanted, name != "a reader that ends", False))


def main(words):
    every, words = "--damage" in words, [it for it in words if it != "--damage"]
    if len(words) > 1:
        sys.exit(__doc__)
    results, chance = Results(), random.Random(40)
    told = told_texts()
    for text, objects in told:
        found = to_json(text.encode())
        results.add(f"what {text!r} tells", found and objects_of(found), objects)
        # (the members come in the order of the line, behind text and line)
        results.add(f"order of {text!r}", [list(it)[:2] for it in objects_of(found or b"")], [["text", "line"]] * len(objects))
    by_hand = [text for text, _ in told] + texts_of(WORKED)
    others = dict.fromkeys([*row_texts(), *refusal_texts(), *stop_texts(), *odd_texts(), *(answers(os.path.abspath(words[0])) if words else [])])
    for text in [*by_hand, *others]:
        results.add(f"back to {text!r}", comes_back(text.encode()))
    for text in NONE:
        results.add(f"refused: {text[:200]!r}", to_json(text.encode("utf-8")), None)
    # (a byte in turn of a long text would take hours)
    for text in [*by_hand, *(it for it in others if len(it) < 2000)] if every else by_hand:
        damage_text(results, text, chance, 1 if every else 3)
        damage_objects(results, text, chance, lambda: VALUES if every else chance.sample(VALUES, 6))
    run_process(results)
    print(f"{results.passed} passed, {results.failed} failed")
    return 1 if results.failed else 0


if __name__ == "__main__":
    sys.exit(main(sys.argv[1:]))
