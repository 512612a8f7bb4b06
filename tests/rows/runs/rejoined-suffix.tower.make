sh thousand-steps.tower.make
