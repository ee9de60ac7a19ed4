predicate tree: verified
function size: verified
method leaf: verified
method add: verified
method bump: verified
5 verified, 0 failed, 0 resting, 0 limited, 0 faults
