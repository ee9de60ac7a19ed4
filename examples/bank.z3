function total: verified
method deposit: verified
method withdraw: verified
method transfer: verified
method save: verified
method spend: verified
6 verified, 0 failed, 0 resting, 0 limited, 0 faults
