# Reads what `strace -y -s 4` told of a run, and looks at one pair's system calls on its job file, its cells and the job file's folder, in their order.
# Variables: job, cells and folder, the whole paths; first, the file's byte 0 at the end of a run that is done ("00" closed, "A5" open); status, that of
# the pair (the run's, if it is empty). Prints a line for each call that comes too early, and at the end `syncs N`, how many went through.

function wrong(text) { print "line " NR ": " text }

# Whether the call went through.
function went() { return $0 !~ /= -1 E/ }

# Whether this call is on the file of this path.
function on(path) { return match($0, /<[^>]*>/) && substr($0, RSTART + 1, RLENGTH - 2) == path }

BEGIN {
    entry = 0          # the job file's entry is on the disk
    earlier = 1        # cells may be in the cache since an earlier run
    cells_wait = 1     # cells may be in the cache
    job_waits = 1      # the job file may be in the cache
    free_waits = 0     # byte 0 was written as free, and that waits
    failed = ""        # a sync that failed
    last = ""          # what byte 0 was last written as
}

/^fsync\(/ && on(folder) {
    if (went()) { entry = 1; syncs++ } else failed = "folder"
}

/^fsync\(/ && on(job) {
    if (!entry) wrong("the job file is synced before its entry")
    if (failed ~ /job|folder/) wrong("a sync of the job file behind one that failed")
    if (went()) { job_waits = 0; free_waits = 0; syncs++ } else failed = failed "job"
}

/^fsync\(/ && on(cells) {
    if (failed ~ /cells/) wrong("a sync of the cells behind one that failed")
    if (went()) { earlier = 0; cells_wait = 0; syncs++ } else failed = failed "cells"
}

/^pread64\(/ && on(job) {
    if (!entry) wrong("the job file is read before its entry is on the disk")
    if (job_waits) wrong("the job file is read before it is synced")
}

(/^pwrite64\(/ || /^ftruncate\(/) && on(job) {
    if (!entry) wrong("the job file is changed before its entry is on the disk")
    if (cells_wait) wrong("the job file is changed before the cells are synced")
    if (failed != "") wrong("the job file is changed behind a sync that failed")
    if (/, "\\245", 1, 0\)/) {
        if (job_waits) wrong("the gate is opened before the body is synced")
        last = "A5"
    } else if (/, "\\0", 1, 0\)/) {
        free_waits = 1
        last = "00"
    } else if (free_waits) wrong("the body is written before byte 0 is synced")
    job_waits = 1
    changes++
}

/^pread64\(/ && on(cells) {
    if (earlier) wrong("cells are read before those of an earlier run are synced")
}

/^pwrite64\(/ && on(cells) {
    if (job_waits) wrong("cells are changed before the job file is synced")
    if (last == "00") wrong("cells are changed behind the close")
    if (failed != "") wrong("cells are changed behind a sync that failed")
    cells_wait = 1
    writes++
}

/^\+\+\+ exited with/ {
    if (status == "") status = $4
    if (status == 0) {
        if (cells_wait) wrong("done with cells that aren't synced")
        if (job_waits) wrong("done with a job file that isn't synced")
        if (last != first) wrong("done with byte 0 written as '" last "'")
    }
    if (status == 0 && failed != "") wrong("done behind a sync that failed")
    print "syncs " syncs + 0
}
