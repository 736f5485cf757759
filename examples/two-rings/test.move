0.0.0.2.1.0.1 pass Rings#0{left=Left#0,right=Right#0,size=3} Left#0{next=Other#0} Right#0{next=Right#0} Other#0{next=Left#0}
0.0.0.2.2.0.3.1 pass Rings#0{left=Left#0,right=Right#0,size=4} Left#0{next=Other#0} Right#0{next=Other#1} Other#0{next=Left#0} Other#1{next=Right#0}
0.0.0.2.2.3.0.1 pass Rings#0{left=Left#0,right=Right#0,size=4} Left#0{next=Other#0} Right#0{next=Right#0} Other#0{next=Other#1} Other#1{next=Left#0}
0.0.0.2.3.0.3.4.1 pass Rings#0{left=Left#0,right=Right#0,size=5} Left#0{next=Other#0} Right#0{next=Other#1} Other#0{next=Left#0} Other#1{next=Other#2} Other#2{next=Right#0}
0.0.0.2.3.3.0.4.1 pass Rings#0{left=Left#0,right=Right#0,size=5} Left#0{next=Other#0} Right#0{next=Other#2} Other#0{next=Other#1} Other#2{next=Right#0} Other#1{next=Left#0}
0.0.0.2.3.3.4.0.1 pass Rings#0{left=Left#0,right=Right#0,size=5} Left#0{next=Other#0} Right#0{next=Right#0} Other#0{next=Other#1} Other#1{next=Other#2} Other#2{next=Left#0}
valid 6 failing 0 tried 153
