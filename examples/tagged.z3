function is_tagged: verified
function payload_of: verified
method clear: verified
method peek: failed at 26:8 F06 (sat)
3 verified, 1 failed, 0 resting, 0 limited, 0 faults
