method add: verified
method twice: verified
method grows: failed at 21:10 F01 (sat)
2 verified, 1 failed, 0 resting, 0 limited, 0 faults
