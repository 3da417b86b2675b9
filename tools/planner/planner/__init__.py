"""What plan.py and merge_curves.py say of curves: read and written (curve), estimated from parts (estimate), the figures of a size
(figures), the table (table), the picture (picture), keys asked once (keys), other policies by simulation (policies)."""
