method increment: verified
method twice: verified
method order: verified
method sorted: verified
method power: verified
method beside: verified
method add: verified
method half: failed at 72:3 F05 (sat)
method unchanged: failed at 78:30 F07 (sat)
7 verified, 2 failed, 0 resting, 0 limited, 0 faults
