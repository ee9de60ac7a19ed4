method increment: verified
method apart: verified
method joined: verified
method sum: verified
method link: verified
method half: failed at 57:3 F02 (sat)
method lost: failed at 66:10 F01 (sat)
5 verified, 2 failed, 0 resting, 0 limited, 0 faults
