method id: verified
method choose: verified
method open: failed at 25:10 F01 (sat)
2 verified, 1 failed, 0 resting, 0 limited, 0 faults
