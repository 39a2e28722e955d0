"""Dumps that other simulators wrote, as stimuli and expected values."""
