// So many rounds between two peers of pion, each of which adds an audio line: rounds TIMES. No address is gathered.
package main

import (
	"fmt"
	"os"
	"strconv"

	"github.com/pion/webrtc/v3"
)

func must(err error) {
	if err != nil {
		panic(err)
	}
}

func peer() *webrtc.PeerConnection {
	media := &webrtc.MediaEngine{}
	must(media.RegisterDefaultCodecs())
	settings := webrtc.SettingEngine{}
	settings.SetInterfaceFilter(func(string) bool { return false })
	made, err := webrtc.NewAPI(webrtc.WithMediaEngine(media), webrtc.WithSettingEngine(settings)).NewPeerConnection(webrtc.Configuration{})
	must(err)
	return made
}

// Sets what a peer made, and returns it as text.
func said(by *webrtc.PeerConnection, made webrtc.SessionDescription, err error) webrtc.SessionDescription {
	must(err)
	must(by.SetLocalDescription(made))
	return webrtc.SessionDescription{Type: made.Type, SDP: made.SDP}
}

func main() {
	times, err := strconv.Atoi(os.Args[1])
	must(err)
	left, right := peer(), peer()
	lines := 0
	for i := 0; i < times; i++ {
		_, err := left.AddTransceiverFromKind(webrtc.RTPCodecTypeAudio)
		must(err)
		offer, err := left.CreateOffer(nil)
		must(right.SetRemoteDescription(said(left, offer, err)))
		answer, err := right.CreateAnswer(nil)
		must(left.SetRemoteDescription(said(right, answer, err)))
		lines = len(left.GetTransceivers())
	}
	fmt.Println(lines)
	must(left.Close())
	must(right.Close())
}
