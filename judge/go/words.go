package judge

// Copied from words.json by judge/make_words. manyPart and manyMeet are numbers of calls, manyPatience is in seconds,
// manyAlert in microseconds.
// made of words.json
var presets = []shape{{"few keys", size{4, 1, 5000, 4, 1, false}}, {"fresh sets", size{4, 40, 10, 4, 1, false}}, {"multiples of 64", size{4, 1, 5000, 8, 64, false}}, {"one key", size{3, 1, 5000, 1, 1, false}}, {"sets that grow", size{4, 20, 125, 64, 1, false}}, {"many keys", size{4, 1, 2500, 1000, 1, false}}, {"multiples of 1,000", size{8, 1, 2500, 8, 1000, false}}}

var ranges = []limits{{"threads", 1, 64}, {"threads times calls", 1, 1000000000}, {"keys", 1, 1048576}, {"pauses", 0, 100}, {"runs", 1, 1000000}, {"seconds", 1, 3600}, {"within", 1, 604800}, {"at_least", 0, 100}, {"the sum of shares", 1, 1000000}}

const (
	manyPart        = 20000
	manyLongest     = 100
	manyHot         = 4
	manyEnough      = 5
	manyHarder      = 2
	manyPatience    = 10
	manyMeet        = 250
	manyAwake       = 300000
	manyWithin      = 60
	manyApart       = 100
	manyStops       = 128
	manyAgain       = 4
	manyPatient     = 40
	manyMany        = 40
	manySoon        = 4000
	manyAlert       = 500
	manyTries       = 60
	manyNear        = 128
	manyFurther     = 4
	manyFurtherFor  = 3
	manyFurtherMost = 10
	manyClear       = 10
	manyLonger      = 4
	manyStopsPer    = 5000
	sayOk           = "ok: %v calls, and %v of them overlapped a change of their key"
	sayFew          = "few calls overlapped, so ok means little: %v calls, and %v of them overlapped a change of their key"
	sayFewerRuns    = "; only %v of %v runs were made, because no run begins after %v s (option within)"
	sayTooFew       = "too few calls overlapped: %v of %v calls overlapped a change of their key, and at_least requires %v of 100. If the machine is busy, raise within. Otherwise use fewer keys or more threads"
	sayFailedRun    = "%v\n\nseed %v (%v), %v threads%v; recorded in %v%v; judge: %v"
	sayRange        = "%v is %v, but must be %v to %v"
	sayTwice        = "the key function returns %v for %v and for %v, but must return a different key for each number"
	sayHung         = "the set hung: no call began or ended for %v s"
	sayCrashed      = "the set crashed: %v"
	sayEndedSo      = "the set ended its process with status %v"
	sayThrew        = "a call of the set failed: %v"
	sayNotMade      = "the set could not be created: %v"
	sayNoOpening    = "contains of an opening key had no known outcome in %v calls"
	sayUnderWay     = "%v\npending:%v\nbefore that: %v"
	sayExplained    = "some order explains the calls"
	sayPassedBefore = "; passed before: %v"
	sayRefusedOf    = "; longer runs followed the first refusal: %v of %v runs were refused"
	sayPendingCall  = "\n  thread %v: %v %v%v, begun at moment %v"
	sayIsKey        = " (key %v of the recording)"
	sayKeyIs        = "; key %v above means key %v"
	sayInSet        = ", in set number %v of those that the run created"
	sayMadeHarder   = "; with changed sizes, because few calls overlapped"
	sayNoFolder     = "no file can be written in %v: set record to another folder"
	sayNoRecord     = "the variable LISTSET_RECORD is %v, but no file can be written there: set it to another folder"
	sayNoTemporary  = "no file can be written in %v, the folder for temporary files: set the variable TMPDIR (in Java the property java.io.tmpdir) to another folder"
	sayNoMemory     = "there is not enough memory for the calls of a run"
	sayNoProcess    = "no process could be started for a run: %v"
	sayNotAgain     = "the child process ran the test, but did not reach this judge: set own_process to false"
	sayNoJudge      = "no judge was found: %v cannot be run. Copy the file judge/listset.js of this judge's repository, and set LISTSET to its path (Node 18 runs it); or put the program listset in PATH. LISTSET=skip skips this test"
	sayNoScript     = "the variable LISTSET is %v, but no file is at %v: set LISTSET to the full path of listset.js"
	sayNoNode       = "no judge was found: LISTSET is %v, which needs Node 18 or newer, but no node is in PATH"
	sayOldNode      = "node is %v, but %v needs Node 18 or newer"
	sayIsFolder     = "%v is a folder: set LISTSET to the program in it"
	sayNoVerdict    = "%v printed no verdict, but: %v. Use a newer listset"
	sayAndMore      = "\n  and %v more"
	sayAlone        = ", the calls that show it in %v"
	saySkipped      = "skipped: LISTSET is skip"
	sayNotInCi      = "LISTSET is skip, but the variable CI is set: in CI no test is skipped"
	sayNumber       = "the variable %v is %v, but must be a number from %v to %v"
)

// end of what is made
